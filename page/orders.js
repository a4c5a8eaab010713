"use strict";
// Every order of turns of a script: what the library writes of a search, read and shown.

// A search begins with few states and goes on with four times as many, so that what was found so far is soon seen.
const firstStates = 1000;

// The processors of an order as it is written, `0 1 0`, or `-` for no turn.
function orderOf(text) {
  return (text.match(/\d/g) || []).map(Number);
}

// An outcome's first line: `outcome 1 stuck, order 0 1 0`.
function readOutcome(line) {
  const found = /^outcome (\d+) (ended|stuck|cut), order (.*)$/.exec(line);
  return found && { number: Number(found[1]), kind: found[2], order: orderOf(found[3]), report: [], forms: [], why: [] };
}

// How else the messages of an outcome may stand: `or message 0 round 1 rest, order 0 1 1`.
function readForm(line) {
  const found = /^or (message .*), order (.*)$/.exec(line);
  return found && { said: found[1], order: orderOf(found[2]) };
}

// The last line: `3 outcomes; 95 states, 165 turns; complete`, or `a part (states)` by the bound that ended it.
function readSum(line) {
  const found = /^(\d+) outcomes?; (\d+) states?, (\d+) turns; (complete|a part)(?: \((\w+)\))?$/.exec(line);
  return found && { outcomes: Number(found[1]), states: Number(found[2]), turns: Number(found[3]), isComplete: found[4] === "complete", bound: found[5] ?? null };
}

// All that a search writes.
function readOrders(text) {
  const lines = text.split("\n"), read = { outcomes: [], lost: null, sum: null, verdicts: verdictsIn(lines) };
  for (const line of lines) {
    const outcome = readOutcome(line), last = read.outcomes[read.outcomes.length - 1];
    if (outcome) read.outcomes.push(outcome);
    else if (readVerdict(line)) continue;
    else if (readForm(line) && last) last.forms.push(readForm(line));
    else if (line.startsWith("lost: ")) read.lost = line.slice(6);
    else if (line.startsWith("stopped by ")) continue;
    else if (readSum(line)) read.sum = readSum(line);
    else if (line.startsWith("why: ") && last) last.why = line.slice(5).split("; ");
    else if (line && last) last.report.push(line);
  }
  return read;
}

const outcomeKinds = { ended: ["ended", "every thread ended"], stuck: ["waits", "stuck: no turn changes anything any more"], cut: ["ready", "cut off by a bound"] };

// A button that replays an order.
function replayButton(order, go, name) {
  return make("button", { type: "button", class: "small", "data-replay": name, "aria-label": `Replay ${name} step by step`, onclick: () => go(order) }, "Replay step by step");
}

// What is said of states from which no end can be reached.
function lostParts(lost, go) {
  const found = lost && /^(.* after order) (.*)$/.exec(lost);
  if (!found) return [];
  const order = orderOf(found[2]);
  const words = order.length ? [`Lost: ${found[1]} `, make("code", { class: "order" }, found[2]), " "] : [`Lost: ${found[1].replace(/; (the first)? ?after order$/, (_, first) => `; ${first || "it"} is the opening`)}`];
  return order.length ? [...words, replayButton(order, go, "the way to the first lost state")] : words;
}

// How else messages may stand, with the way there.
function formItem({ said, order }, go, name) {
  return make("li", {}, `or ${said} `, replayButton(order, go, name));
}

// An outcome with its kind, its order, its report, how else its messages may stand, and why its threads are stuck.
function outcomeItem(outcome, go) {
  const [chip, words] = outcomeKinds[outcome.kind];
  const order = outcome.order.length ? outcome.order.join(" ") : "no turn at all";
  const whys = outcome.why.length ? make("ul", { class: "why" }, ...outcome.why.map((why) => make("li", {}, why))) : null;
  const forms = outcome.forms.length ? make("ul", { class: "forms" }, ...firstItems(outcome.forms, (form) => formItem(form, go, `outcome ${outcome.number} with other messages`))) : null;
  const turns = outcome.order.length === 1 ? "1 turn" : `${outcome.order.length} turns`;
  return make("li", { "data-kind": outcome.kind },
    make("h4", {}, `Outcome ${outcome.number} `, make("span", { class: `chip ${chip}` }, words)),
    make("p", {}, `After ${turns}, of the processors in this order: `, make("code", { class: "order" }, order)),
    make("p", {}, replayButton(outcome.order, go, `outcome ${outcome.number}`)),
    make("pre", { tabindex: "0", "aria-label": `Report of outcome ${outcome.number}` }, outcome.report.join("\n")), forms, whys);
}

const boundWords = { states: "the bound of states was reached", turns: "some orders have too many turns", memory: "the memory was used up", stopped: "it was stopped" };

// What a line of an outcome's report says, each fact with its head: what it is of, by its name where there is one.
function factsIn(line, names) {
  const [kind, number, ...words] = line.split(" "), thread = readThread(line);
  const name = (names[`${kind}s`] || [])[number] ?? `${kind} ${number}`, cells = names.cells[number] || [];
  if (kind === "token") return [[`${name} gen`, words[1]], ...words.slice(3).map((cell, i, { length }) => [cells.length === length && cells[i] ? `${name}.${cells[i]}` : `${name} cell ${i}`, cell])];
  if (kind === "record") return [[`record of ${names.tokens[number] ?? `token ${number}`}`, recordWords(words[0].replace("-", ""))]];
  if (kind === "message") return [[`${name} round`, words[1]], [name, words.slice(2).join(" ")]];
  if (!thread) return [];
  const who = names.threads.get(thread.id) ?? `thread ${thread.id}`;
  return [[who, thread.state], [`list of ${who}`, thread.list.join(" ")], [`log of ${who}`, thread.log.map(entryWords).join(" ")]];
}

// What outcomes differ in: the heads of that, a row of each outcome, and of the others what is the same in all.
function differences(outcomes, names) {
  const facts = outcomes.map((outcome) => new Map([["ends", outcome.kind], ...outcome.report.flatMap((line) => factsIn(line, names))]));
  const heads = [...new Set(facts.flatMap((it) => [...it.keys()]))];
  const valuesOf = (head) => new Set(facts.map((it) => it.get(head) ?? ""));
  const differing = heads.filter((head) => valuesOf(head).size > 1);
  const same = heads.filter((head) => head !== "ends" && !differing.includes(head) && facts[0].get(head)).map((head) => `${head} ${facts[0].get(head)}`);
  return { heads: differing.map((head) => ({ head, count: valuesOf(head).size })), rows: facts.map((it) => differing.map((head) => it.get(head) ?? "")), same };
}

// Outcomes as a table of what differs between them, with counts: of the values of a column, and of an outcome's turns and other forms.
function differTable(outcomes, names, go) {
  const { heads, rows, same } = differences(outcomes, names), hasForms = outcomes.some(({ forms }) => forms.length);
  const first = ["Outcome", ...heads.map(({ head, count }) => `${head} (${count} values)`), "Turns", ...(hasForms ? ["Other forms"] : []), ""];
  const parts = outcomes.map(({ number, order, forms }, i) => make("tr", {}, make("th", { scope: "row" }, number),
    ...rows[i].map((value) => make("td", { class: "mono" }, value || "-")), make("td", {}, order.length), hasForms ? make("td", {}, forms.length) : null,
    make("td", {}, make("button", { type: "button", class: "small", "aria-label": `Replay outcome ${number} of the table`, onclick: () => go(order) }, "Replay"))));
  return [table(first, parts), make("p", { class: "quiet" }, same.length ? `The same in all: ${same.join(", ")}.` : "")];
}

// What was searched, in words.
function sumWords({ sum }, isLast) {
  const states = sum.states === 1 ? "1 state" : `${sum.states} states`;
  const found = sum.outcomes === 1 ? "1 outcome" : `${sum.outcomes} outcomes`;
  const rest = sum.isComplete ? "Every order was tried." : isLast ? `Not every order was tried, since ${boundWords[sum.bound] || "the search ended"}: there may be more outcomes.` : "Going on ..";
  return `${found} in ${states}, ${sum.turns} turns. ${rest}`;
}

// The bounds of a search, one after another, the last being the one that was asked for.
function* boundsUpTo(most) {
  for (let states = firstStates; states < most; states *= 4) yield states;
  yield most;
}
