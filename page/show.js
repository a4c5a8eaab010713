"use strict";
// Makes the parts of the page that show a turn and what stands after it.

// An element with attributes, listeners (`onclick`) and children, which are elements and texts.
function make(tag, attributes = {}, ...children) {
  const made = document.createElement(tag);
  for (const [name, value] of Object.entries(attributes)) {
    if (name.startsWith("on")) made.addEventListener(name.slice(2), value);
    else if (value !== null && value !== undefined && value !== false) made.setAttribute(name, value === true ? "" : value);
  }
  made.append(...children.filter((child) => child !== null && child !== undefined));
  return made;
}

// A button that leads to a turn.
function turnButton(number, go, words = `turn ${number}`) {
  return make("button", { type: "button", class: "small", onclick: () => go(number) }, words);
}

// A row of the list of turns.
function turnRow(turn, isChosen) {
  const cells = [["number", turn.number], ["round", `round ${turn.round}`], ["cpu", `p${turn.cpu}`]];
  const attributes = { class: `turn${turn.idle ? " idle" : ""}`, id: `turn-${turn.number}`, role: "option", "aria-selected": String(isChosen), "data-turn": turn.number };
  const first = cells.map(([name, text]) => make("span", { class: name }, String(text)));
  const said = turn.idle && turn.idle.size ? [...turn.idle].map(([id, why]) => `${id} ${why}`).join("; ") : turn.outcome || "";
  const rest = turn.idle ? [make("span", { class: "said" }, said)] : [make("span", {}, turn.thread || ""), make("span", {}, turn.ask || ""), make("span", {}, said)];
  return make("div", attributes, ...first, ...rest);
}

// All that a turn's line says.
function showTurn(place, turn, isAlong) {
  const head = turn.thread ? `thread ${turn.thread}, ${turn.step}` : turn.outcome;
  const parts = [];
  if (turn.made) parts.push(make("div", {}, turn.made));
  if (turn.thread) parts.push(make("div", {}, make("code", {}, turn.ask), ": ", make("strong", {}, turn.outcome)));
  for (const [id, why] of turn.idle || []) parts.push(make("div", {}, `${id} ${why}`));
  if (turn.events.length) parts.push(make("ul", {}, ...turn.events.map((event) => make("li", {}, event.text))));
  place.replaceChildren(make("h3", {}, `Turn ${turn.number}, ${isAlong ? "" : `round ${turn.round}, `}processor ${turn.cpu}: ${head}`), ...parts);
}

// The kind of a chip by what is said of a thread.
function kindOf(thread) {
  if (thread.state === "exited") return "ended";
  if (thread.state.startsWith("faulted")) return "faulted";
  if (thread.state === "not begun") return "begins";
  if (/^waits /.test(thread.said)) return "waits";
  return thread.state === "running" ? "runs" : "ready";
}

const chipWords = { runs: "running", ready: "ready", waits: "waits", ended: "ended", faulted: "faulted", begins: "has had no turn" };

// The thread that a message of this thread was last sent to, as the lines up to the chosen turn say.
function targetOf(message, id, turns, last) {
  for (let at = last; at >= 0; at -= 1) {
    const turn = turns[at];
    const sent = turn.thread === id && /^\["(?:do|send)",(\d+),(\d+),(\d+),/.exec(turn.ask);
    if (sent && Number(sent[1]) === message) return `${sent[2]}.${sent[3]}`;
  }
  return null;
}

// Whom a thread waits for, as what is said of it names them.
function waitedFor(thread, look) {
  const held = /, held (?:exclusively|shared) by (.*)$/.exec(thread.said);
  if (held) return held[1].split(", ").filter((id) => /^\d+\.\d+$/.test(id));
  const reply = /^waits for the reply to message (\d+)/.exec(thread.said);
  if (!reply) return [];
  const target = targetOf(Number(reply[1]), thread.id, look.turns, look.at);
  return target ? [target] : [];
}

// What is said of a thread, and of whom it waits for, and so on: one line each, from the first on.
function whyChain(thread, threads, look) {
  const lines = [], seen = new Set(), next = [thread.id];
  while (next.length && lines.length < 12) {
    const id = next.shift();
    const it = threads.find((other) => other.id === id);
    if (seen.has(id)) {
      lines.push(`So it comes back to ${id}: each of these waits for the next.`);
      continue;
    }
    seen.add(id);
    if (!it) {
      lines.push(`${id} isn't there.`);
      continue;
    }
    lines.push(`${id} ${it.said} (${it.moment}).`);
    if (/^waits /.test(it.said)) next.push(...waitedFor(it, look));
  }
  return lines;
}

// Since when a token that a thread waits for stands as it does.
function sinceOf(thread, state) {
  const wanted = /^waits for token (\d+)/.exec(thread.said), reply = /^waits for the reply to message (\d+)/.exec(thread.said);
  const it = wanted ? state.tokens[wanted[1]] : reply ? state.messages[reply[1]] : null;
  return it ? it.told : null;
}

// Opens or closes what stands behind `Why does it wait?`.
function toggleWhy(button, place, thread, look) {
  const isOpen = button.getAttribute("aria-expanded") === "true";
  button.setAttribute("aria-expanded", String(!isOpen));
  place.hidden = isOpen;
  if (isOpen) return;
  const list = make("ol", { class: "why" }, ...whyChain(thread, look.threads, look).map((line) => make("li", {}, line)));
  const since = sinceOf(thread, look.state);
  place.replaceChildren(list, since === null ? "" : make("p", { class: "quiet" }, "It stands so since ", turnButton(since, look.go), "."));
}

// The name that a text gives to something.
function nameOf(name) {
  return name === undefined ? null : make("span", { class: "name" }, name, " ");
}

function showThread(thread, look) {
  const kind = kindOf(thread);
  const list = thread.list.length ? thread.list.map((it) => `token ${it.slice(0, -1)}${it.endsWith("s") ? " shared" : ""}`).join(", ") : "none";
  const parts = [make("strong", {}, thread.id), " ", nameOf(look.names.threads.get(thread.id)), make("span", { class: `chip ${kind}` }, kind === "waits" ? thread.said.replace(/^(waits for (?:token \d+|its port|the reply to message \d+)).*$/, "$1") : chipWords[kind])];
  if (kind !== "begins") {
    parts.push(make("div", { class: "quiet" }, `list: ${list}`));
    if (thread.log.length) parts.push(make("div", { class: "quiet mono" }, `log: ${thread.log.map(entryWords).join(" ")}`));
  }
  if (kind === "faulted") parts.push(make("div", { class: "said" }, `${thread.said} (${thread.moment})`));
  if (kind === "waits") {
    const place = make("div", { hidden: true });
    const button = make("button", { type: "button", class: "small", "aria-expanded": "false", "data-why": thread.id }, "Why does it wait?");
    button.addEventListener("click", () => toggleWhy(button, place, thread, look));
    parts.push(button, place);
  }
  return make("div", { class: "thread", "data-thread": thread.id, "data-kind": kind }, ...parts);
}

// The processors with their threads.
function showProcessors(place, cpus, look) {
  const open = [...place.querySelectorAll("[data-why][aria-expanded=true]")].map((it) => it.dataset.why);
  const focused = document.activeElement?.dataset?.why;
  const boxes = [];
  for (let cpu = 0; cpu < cpus; cpu += 1) {
    const own = look.threads.filter((thread) => thread.id.startsWith(`${cpu}.`));
    const rows = own.length ? own.map((thread) => showThread(thread, look)) : [make("p", { class: "quiet" }, "no threads")];
    boxes.push(make("div", { class: `processor${cpu === look.turn.cpu ? " now" : ""}` }, make("h4", {}, `Processor ${cpu}`), ...rows));
  }
  place.replaceChildren(...boxes);
  for (const button of place.querySelectorAll("[data-why]")) {
    if (open.includes(button.dataset.why)) button.click();
    if (focused === button.dataset.why) button.focus();
  }
}

function table(heads, rows) {
  const head = make("tr", {}, ...heads.map((text) => make("th", { scope: "col" }, text)));
  return make("div", { class: "wide" }, make("table", {}, head, ...rows));
}

// The number of the turn that told something, or since when nothing is known.
function toldBy(it, look) {
  if (it.told !== null) return turnButton(it.told, look.go, String(it.told));
  return look.from === 0 ? "the opening" : `before turn ${look.from}`;
}

function tokenRow(token, number, look) {
  const parts = token.word === null ? null : partsOf(token.word);
  const word = parts === null ? "no step on it" : token.word;
  const detail = parts && make("div", { class: "quiet" }, `generation ${parts.generation}, count ${parts.count}`);
  const mark = parts === null ? "-" : parts.mark ? "set: wanted exclusively" : "off";
  const changed = look.turn.events.some((event) => event.of === "token" && event.number === number && (event.after !== undefined || event.first || / stored$/.test(event.said)));
  const row = token.row.length ? token.row.map((cell) => cell ?? "?").join(" ") : "no cells";
  const record = token.record === null ? null : make("div", { class: "record" }, make("span", { class: "quiet" }, "record "), token.record);
  const cells = [make("td", { class: "mono" }, word, detail), make("td", {}, token.holders ?? "?"), make("td", {}, mark), make("td", { class: "mono" }, row, record, make("div", { class: "quiet" }, `law ${token.law}`)), make("td", {}, toldBy(token, look))];
  return make("tr", { class: changed ? "changed" : null, "data-token": number }, make("th", { scope: "row" }, `${number} `, nameOf(look.names.tokens[number])), ...cells);
}

function showTokens(place, look) {
  place.replaceChildren();
  if (!look.state.tokens.length) return;
  const hasRecords = look.state.tokens.some((token) => token.record !== null);
  const rows = look.state.tokens.map((token, number) => tokenRow(token, number, look));
  place.append(make("h4", {}, "Tokens"), table(["Token", "Word", "Holders", "Mark", hasRecords ? "Row, record" : "Row", "Told by turn"], rows));
}

// The sign of a message that was sent with priority.
function urgentSign(isUrgent) {
  return isUrgent ? make("span", { class: "urgent" }, "urgent") : null;
}

function messageRow(post, number, look) {
  const changed = look.turn.events.some((event) => event.of === "message" && event.number === number);
  const cells = [make("td", {}, post.owner.join(".")), make("td", {}, post.round ?? "?"), make("td", {}, post.place ?? "?", " ", urgentSign(post.isUrgent) ?? ""), make("td", {}, toldBy(post, look))];
  return make("tr", { class: changed ? "changed" : null, "data-message": number }, make("th", { scope: "row" }, `${number} `, nameOf(look.names.messages[number])), ...cells);
}

function showMessages(place, look) {
  place.replaceChildren();
  if (!look.state.messages.length) return;
  const rows = look.state.messages.map((post, number) => messageRow(post, number, look));
  place.append(make("h4", {}, "Messages"), table(["Message", "Of thread", "Round", "Where", "Told by turn"], rows));
}

// The notes that are on their way: of each message that was sent or replied to and not yet taken or taken back, from where to where.
function notesOf(messages) {
  const lanes = new Map();
  messages.forEach((post, number) => {
    const found = /^(out|back) to (\d+)/.exec(post.place || "");
    if (!found) return;
    const from = found[1] === "out" ? post.owner[0] : post.from;
    const lane = `${from} → ${found[2]}`;
    const words = `${found[1] === "out" ? "message" : "reply to message"} ${number}, round ${post.round}`;
    lanes.set(lane, [...(lanes.get(lane) || []), { words, isUrgent: post.isUrgent }]);
  });
  return lanes;
}

function showLanes(place, look) {
  place.replaceChildren();
  if (!look.state.messages.length) return;
  const lanes = notesOf(look.state.messages);
  const rows = [...lanes].sort().map(([lane, notes]) => make("tr", { "data-lane": lane }, make("th", { scope: "row" }, lane), make("td", {}, ...notes.flatMap(({ words, isUrgent }, i) => [i ? "; " : "", urgentSign(isUrgent), isUrgent ? " " : "", words]))));
  place.append(make("h4", {}, "Lanes with notes"));
  if (!rows.length) place.append(make("p", { class: "quiet" }, "Nothing is on its way."));
  else place.append(table(["From → to", "On its way"], rows), make("p", { class: "quiet" }, "A note is in the lane or in its port's queue until it is taken; lines of a run don't tell these two apart. One that is urgent is served before the others that are in the port."));
}

// A picture is as wide as its place where its letters are then neither too small nor too large.
function fitPicture(picture) {
  const wide = picture.viewBox.baseVal.width;
  picture.style.width = `clamp(${wide}px, 100%, ${wide * 1.5}px)`;
  picture.style.height = "auto";
}

// Puts a picture into its place and returns its root, or null where the text is no picture, or one that can't be read.
function showPicture(place, text) {
  const read = new DOMParser().parseFromString(text, "image/svg+xml");
  const isPicture = !read.querySelector("parsererror") && read.documentElement.localName === "svg";
  if (!isPicture) {
    place.shadowRoot?.replaceChildren();
    return null;
  }
  const root = place.shadowRoot || place.attachShadow({ mode: "open" });
  const style = make("style", {}, "svg{display:block}g[data-turn]{cursor:pointer}.chosen{fill:none;stroke:#0a58ca;stroke-width:3}.later{opacity:.4}");
  root.replaceChildren(style, document.importNode(read.documentElement, true));
  fitPicture(root.querySelector("svg"));
  for (const group of root.querySelectorAll("g")) {
    const found = /^turn (\d+), /.exec(group.querySelector("title")?.textContent || "");
    if (found) group.dataset.turn = found[1];
  }
  return root;
}

// The box of a turn: its own, or in a column that rounds share that of its processor.
function boxOf(picture, number) {
  const has = (group) => number >= Number(group.dataset.turn) && number <= Number(group.dataset.until ?? group.dataset.turn);
  const groups = [...picture.querySelectorAll("g[data-turn]")].filter(has);
  const every = Number(groups[0]?.dataset.every ?? 1);
  return (groups.find((group) => (number - Number(group.dataset.turn)) % every === 0) ?? groups[0])?.querySelector("rect");
}

// Marks a turn in the picture, with the turns behind it pale, and brings it into view.
function markPicture(place, number) {
  const picture = place.shadowRoot?.querySelector("svg");
  picture?.querySelector(".chosen")?.remove();
  for (const group of picture?.querySelectorAll("g[data-turn]") || []) group.classList.toggle("later", Number(group.dataset.turn) > number);
  const box = picture && boxOf(picture, number);
  if (!box) return;
  const value = (name) => Number(box.getAttribute(name));
  const mark = document.createElementNS("http://www.w3.org/2000/svg", "rect");
  const attributes = { class: "chosen", x: value("x") - 3, y: value("y") - 3, width: value("width") + 6, height: value("height") + 6, rx: 3 };
  for (const [name, it] of Object.entries(attributes)) mark.setAttribute(name, it);
  picture.append(mark);
  const scale = picture.getBoundingClientRect().width / picture.viewBox.baseVal.width;
  const left = value("x") * scale - place.clientWidth / 2, top = value("y") * scale - place.clientHeight / 2;
  place.scrollTo(Math.max(0, left), Math.max(0, top));
}
