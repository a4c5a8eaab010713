"use strict";
const at = (id) => document.getElementById(id);
const windowSize = 10000, rowHeight = 28, mostWindows = 12, mostCuts = 64, wholePicture = 120, pictureRounds = 20, mostItems = 200, mostTurns = 100000, mostMarked = 100000;

// ---- The worker, which has the module.

const newMachine = () => ({ worker: null, calls: new Map(), count: 0 });

// One for runs, and one for searches, so that a search leaves runs free.
const machine = newMachine(), searcher = newMachine();

function startWorker(of) {
  const address = URL.createObjectURL(new Blob([at("worker").textContent], { type: "text/javascript" }));
  const worker = new Worker(address);
  URL.revokeObjectURL(address);
  worker.onmessage = ({ data }) => settle(of, data);
  worker.onerror = (event) => stopWorker(event.message || "the worker ended", of);
  of.worker = worker;
  worker.postMessage({ number: 0, packed: at("module").textContent });
}

// A call of the library: what it wrote and its status. Refused where the module trapped, or the worker was stopped.
function askOf(of, call) {
  if (!of.worker) startWorker(of);
  of.count += 1;
  const number = of.count;
  return new Promise((resolve, reject) => {
    of.calls.set(number, { resolve, reject });
    of.worker.postMessage({ number, ...call });
  });
}

const ask = (name, script, words) => askOf(machine, { name, script, words });

function settle(of, answer) {
  if (answer.number === 0) return stopWorker(`this browser doesn't take the module, which needs WebAssembly with 64-bit memory (${answer.error})`, of);
  const call = of.calls.get(answer.number);
  of.calls.delete(answer.number);
  if (answer.error) call?.reject(new Error(answer.error));
  else call?.resolve(answer);
}

// The text that a call wrote.
function textOf(answer) {
  return answer.text;
}

function stopWorker(why, of = machine) {
  of.worker?.terminate();
  of.worker = null;
  const calls = [...of.calls.values()];
  of.calls.clear();
  for (const call of calls) call.reject(new Error(why));
}

const show = (script, words) => ask("lwkt_show_turns", script, words);

// The same words, for what the reader sees: in the names of a text.
const inNames = (words) => words.replace(/^turns/, "turns --names");

// ---- A run: its script, its lines as far as they were asked for, and the runs that are cut off after some rounds.

let run = null;
let chosen = 0;
let wanted = 0;

function statusWords({ status, verdicts, order }) {
  if (status === 0 && verdicts.length) return "All that is expected holds of this run.";
  if (status === 2 && order) return "The order is done, and not every thread has ended.";
  const isUnmet = verdicts.some(({ words }) => words === "doesn't hold");
  return { 0: "Every thread ended.", 2: "The turns were used up before every thread ended.", 4: "The run is unlawful.", 5: isUnmet ? "Something that is expected doesn't hold of this run." : "Something that is expected isn't decided by this run." }[status] || `Status ${status}.`;
}

const isRefused = (answer) => answer.status === 1 || answer.status === 3;

// The words behind which an order of turns stands: `0` to `7`, the processor of each, or `-` for none.
const orderWords = (order) => (order === null ? "turns" : `turns --order ${order.join("") || "-"}`);

// Whether a script is a text, and of one that is run in rounds what its expectations came to, or why it is refused.
async function readScript(script, order) {
  if ((await ask("lwkt_is_text", script)).status !== 1) return { isText: false, verdicts: [] };
  const told = order ? null : await ask("lwkt_run_text", script);
  if (told && isRefused(told)) return { isText: true, refused: told };
  return { isText: true, verdicts: told ? readVerdicts(textOf(told), script) : [], status: told?.status };
}

// What a script opens with, as the trace of a run without a turn has it.
async function openingOf(script) {
  return JSON.parse(textOf(await show(script, `${orderWords([])} --trace`)));
}

// Where the steps of each thread stand in a script. Of a long one that is left open, since a browser takes 0.3 s to mark a part of a
// million characters.
async function stepsOf(script, isText) {
  if (script.length > mostMarked) return new Map();
  if (!isText) return jsonSteps(script);
  const sentences = sentencesOf(script), numbered = await ask("lwkt_text_json", numberSteps(sentences));
  return textSteps(sentences, textOf(numbered), textOf(await ask("lwkt_text_json", script)));
}

// A run of a script, in rounds or along an order.
async function makeRun(text, order) {
  const form = await readScript(text, order);
  if (text === at("script").value) putForm(form.isText);
  if (form.refused) return form;
  const { isText } = form, words = orderWords(order);
  const whole = await show(text, words);
  if (isRefused(whole)) return { isText, refused: whole };
  const read = await readSlowly(textOf(whole));
  const opening = await show(text, `${orderWords([])} --chains`);
  const { messages, cpus, tokens } = await openingOf(text);
  const records = tokens.map(({ record }) => (typeof record === "string" ? recordWords(record) : null));
  const made = { text, isText, order, words, names: isText ? namesOf(text) : noNames, steps: await stepsOf(text, isText), verdicts: form.verdicts, cpus, messages, records, whole: read, status: form.status ?? whole.status, milliseconds: whole.milliseconds, total: read.total, openings: readOpenings(textOf(opening)), windows: new Map(), cuts: new Map(), parts: new Map() };
  made.rounds = order ? made.total : Math.ceil(made.total / cpus);
  await addWindow(made, 0, read.turns);
  return { made };
}

// What stands before the first of some turns: at the start of the run its opening, else what the turns before left, if known.
async function stateBefore(it, number) {
  if (number === 0) return openState(it.openings, it.messages, it.records);
  const before = it.windows.get(number - 1);
  if (!before) return unknownState(it.openings, it.messages, it.records);
  return stateAfter(before, before.turns.length - 1);
}

async function addWindow(it, number, turns) {
  const before = await stateBefore(it, number);
  const from = number === 0 ? 0 : it.windows.has(number - 1) ? it.windows.get(number - 1).from : number * windowSize;
  tellFirstWords(before, turns);
  if (it.windows.size >= mostWindows) it.windows.delete([...it.windows.keys()].find((key) => key !== 0));
  it.windows.set(number, { turns, before, from, marks: [] });
}

// What stands after a turn of a window. Every 256th state is kept, so that a step is quick.
async function stateAfter(part, last) {
  const slices = new Slices();
  let state = copyState(part.before), begin = 0;
  for (let mark = Math.floor((last + 1) / 256); mark > 0; mark -= 1) {
    if (!part.marks[mark]) continue;
    state = copyState(part.marks[mark]);
    begin = mark * 256;
    break;
  }
  for (let i = begin; i <= last; i += 1) {
    if (i % 256 === 0 && i > 0 && !part.marks[i / 256]) part.marks[i / 256] = copyState(state);
    tell(state, part.turns[i]);
    if (i % 64 === 0) await slices.rest();
  }
  return state;
}

// The lines round a turn, asked for where they aren't there.
async function windowOf(it, turn) {
  const number = Math.floor(turn / windowSize);
  if (!it.windows.has(number)) {
    const from = number * windowSize;
    const lines = await show(it.text, `${it.words} --turns ${from}..${from + windowSize - 1}`);
    await addWindow(it, number, (await readSlowly(textOf(lines))).turns);
  }
  return it.windows.get(number);
}

// What is told of the run that ends after so many rounds, or after so many turns of its order.
async function cutAfter(it, rounds) {
  if (rounds >= it.rounds) return it.whole;
  if (!it.cuts.has(rounds)) {
    const script = it.order ? it.text : cutScript(it.text, rounds, it.isText);
    const cut = await show(script, `${it.order ? orderWords(it.order.slice(0, rounds)) : it.words} --turns 0..0`);
    if (it.cuts.size >= mostCuts) it.cuts.delete(it.cuts.keys().next().value);
    it.cuts.set(rounds, readRun(textOf(cut)));
  }
  return it.cuts.get(rounds);
}

// A thread as a cut run tells it; what the line of its processor's last turn says of it goes before.
function threadOf(line, cut, last, moment) {
  const thread = { ...line, said: cut.whys.get(line.id) || "ended", moment };
  const idle = last?.idle?.get(line.id);
  if (idle) Object.assign(thread, { said: idle, moment: `in turn ${last.number}` });
  return thread;
}

// All threads after a turn of an order, which can be cut off right behind it.
async function threadsAlong(it, turn) {
  const after = await cutAfter(it, turn.number + 1), had = new Set(it.order.slice(0, turn.number + 1));
  return after.threads.map((line) => {
    if (had.has(Number(line.id.split(".")[0]))) return threadOf(line, after, null, `after turn ${turn.number}`);
    return { id: line.id, state: "not begun", said: "has had no turn", list: [], log: [], moment: `after turn ${turn.number}` };
  });
}

// All threads as their processors' last turns left them. Threads change in turns of their own processor alone, so those of
// processors that had no turn yet in this round are as the round before left them.
async function threadsAfter(it, part, turn) {
  if (it.order) return threadsAlong(it, turn);
  const after = await cutAfter(it, turn.round + 1);
  const before = turn.round > 0 ? await cutAfter(it, turn.round) : null;
  const first = part.turns[0].number;
  return after.threads.map((line) => {
    const cpu = Number(line.id.split(".")[0]);
    const had = cpu <= turn.cpu;
    const last = part.turns[(had ? turn.round : turn.round - 1) * it.cpus + cpu - first];
    if (had) return threadOf(line, after, last, `as round ${turn.round} ends`);
    if (!before) return { id: line.id, state: "not begun", said: "has had no turn", list: [], log: [], moment: "before round 0" };
    return threadOf(before.threads.find((other) => other.id === line.id), before, last, `as round ${turn.round - 1} ends`);
  });
}

// ---- The list of turns. Only the rows in view are there.

function drawRows() {
  const part = run?.windows.get(Math.floor(chosen / windowSize));
  if (!part) return at("rows").replaceChildren();
  const box = at("turns"), first = Math.max(0, Math.floor(box.scrollTop / rowHeight) - 10);
  const last = Math.min(part.turns.length, first + Math.ceil(box.clientHeight / rowHeight) + 20);
  at("rows").style.height = `${part.turns.length * rowHeight}px`;
  const rows = [];
  for (let i = first; i < last; i += 1) {
    const row = turnRow(part.turns[i], part.turns[i].number === chosen);
    row.style.top = `${i * rowHeight}px`;
    row.setAttribute("aria-setsize", run.total);
    row.setAttribute("aria-posinset", part.turns[i].number + 1);
    rows.push(row);
  }
  at("rows").replaceChildren(...rows);
  box.setAttribute("aria-activedescendant", `turn-${chosen}`);
}

function scrollToChosen() {
  const box = at("turns"), top = (chosen % windowSize) * rowHeight;
  if (top < box.scrollTop) box.scrollTop = top;
  else if (top + rowHeight > box.scrollTop + box.clientHeight) box.scrollTop = top + rowHeight - box.clientHeight;
}

// ---- The chosen turn.

function showNumbers() {
  at("number").value = chosen;
  at("number").max = run.total - 1;
  at("of").textContent = `of ${run.total - 1}`;
  for (const [id, off] of [["first", chosen === 0], ["back", chosen === 0], ["forth", chosen >= run.total - 1], ["last", chosen >= run.total - 1]]) {
    at(id).setAttribute("aria-disabled", String(off));
  }
}

async function drawChosen(it, turn) {
  const part = await windowOf(it, turn);
  if (it !== run || turn !== wanted) return;
  chosen = turn;
  const index = turn % windowSize, now = part.turns[index];
  showNumbers();
  scrollToChosen();
  drawRows();
  showTurn(at("chosen"), now, Boolean(it.order));
  markAsk(it, now);
  const state = await stateAfter(part, index);
  if (it !== run || turn !== chosen) return;
  const look = { names: it.names, turn: now, turns: part.turns, at: index, state, from: part.from, go: choose, threads: [] };
  at("state-head").textContent = `After turn ${turn}`;
  showTokens(at("tokens"), look);
  showMessages(at("messages"), look);
  showLanes(at("lanes"), look);
  const threads = await threadsAfter(it, part, now);
  if (it !== run || turn !== chosen) return;
  look.threads = threads;
  showProcessors(at("processors"), it.cpus, look);
  await drawPicture(it, now.round);
  if (it === run && turn === chosen) markPicture(at("drawing"), turn);
}

let isDrawing = false;

// Goes to a turn. While one is being drawn, only the last one that was asked for is drawn after it.
async function choose(turn) {
  if (!run || run.total === 0) return;
  wanted = Math.min(Math.max(0, Math.trunc(turn)), run.total - 1);
  if (isDrawing) return;
  isDrawing = true;
  try {
    for (let drawn = -1, it = null; run && (drawn !== wanted || it !== run); ) {
      [drawn, it] = [wanted, run];
      await drawChosen(it, drawn);
    }
  } catch (error) {
    say(error.message);
  } finally {
    isDrawing = false;
  }
}

// ---- Playing: a turn after another, from the first again where the last one is chosen.

let playing = 0;

function setPlaying(is) {
  clearTimeout(playing);
  playing = is ? setTimeout(playOn, 1000 / Number(at("speed").value)) : 0;
  at("play").textContent = is ? "Pause" : "Play";
  at("chosen").setAttribute("aria-live", is ? "off" : "polite");
}

async function playOn() {
  const own = playing, before = chosen;
  await choose(before + 1);
  if (playing === own) setPlaying(chosen !== before && chosen < run.total - 1);
}

async function togglePlay() {
  if (playing || !run?.total) return setPlaying(false);
  if (chosen === run.total - 1) await choose(0);
  setPlaying(true);
}

// ---- The picture: the whole of a short run, else 20 rounds of it.

function pictureRange(it, round) {
  if (it.rounds <= wholePicture) return [0, Math.max(0, it.rounds - 1)];
  const from = Math.floor(round / pictureRounds) * pictureRounds;
  return [from, Math.min(from + pictureRounds, it.rounds) - 1];
}

async function drawPicture(it, round) {
  const [from, to] = pictureRange(it, round);
  if (it.picture === from) return;
  const drawn = await show(it.text, `${inNames(it.words)} --${it.order ? "turns" : "rounds"} ${from}..${to} --svg`);
  if (it !== run) return;
  it.picture = from;
  it.drawn = textOf(drawn);
  const isDrawn = showPicture(at("drawing"), textOf(drawn)) !== null;
  const range = `${it.order ? "turns" : "rounds"} ${from} to ${to} of 0 to ${Math.max(0, it.rounds - 1)}`;
  at("drawing").hidden = at("save-picture").hidden = !isDrawn;
  at("rounds").textContent = isDrawn ? range : `${range}: no picture`;
  at("rounds-back").hidden = at("rounds-forth").hidden = it.rounds <= wholePicture;
}

// ---- Running.

function say(text) {
  at("status").textContent = text;
}

function setBusy(is) {
  at("stop").hidden = !is;
  at("look").setAttribute("aria-busy", String(is));
}

async function start(turn = 0, order = null) {
  const script = at("script").value;
  clearRefusal();
  markOld();
  say("Running ..");
  setBusy(true);
  try {
    const answer = await makeRun(script, order);
    say("");
    if (!answer.refused) showRun(answer.made, turn);
    else if (script === at("script").value) showRefusal(script, answer.refused, answer.isText);
    else putRunAway("Not run yet.");
  } catch (error) {
    putRunAway("Nothing came of the last run.");
    say(`It didn't run: ${error.message}`);
  } finally {
    setBusy(false);
  }
}

// Takes all that is shown of a run away, and says what stands in its place.
function putRunAway(words) {
  run = null;
  setPlaying(false);
  for (const id of ["ran", "rest", "along", "expected"]) at(id).hidden = true;
  at("verdicts").replaceChildren();
  at("verdict").textContent = words;
  markOld();
}

// Marks what is shown of a run as old while another script stands in the editor.
function markOld() {
  const isOld = Boolean(run) && run.text !== at("script").value;
  at("old").hidden = !isOld;
  at("look").classList.toggle("old", isOld);
}

// What an edit leaves: no refusal, and of an old run what it was, marked as old.
function noteEdit() {
  setPlaying(false);
  numberLines();
  if (at("stop").hidden) say("");
  clearRefusal();
  if (!run) putRunAway("Not run yet.");
  markOld();
  nameScript(null);
  clearOrders();
  showFormSoon();
}

function showVerdict(it) {
  const good = it.whole.verdict === "lawful";
  const faulted = it.whole.threads.filter((thread) => thread.state.startsWith("faulted")).map((thread) => `${thread.id} ${thread.state}`);
  const parts = [`${statusWords(it)} `, make("span", { class: good ? "good" : "bad" }, it.whole.verdict)];
  if (faulted.length) parts.push("; ", make("span", { class: "bad" }, faulted.join(", ")));
  const length = it.order ? `${it.total} turns` : `${it.total} turns in ${it.rounds} rounds`;
  at("verdict").replaceChildren(...parts, make("span", { class: "quiet" }, `. ${length}, ${it.milliseconds.toFixed(it.milliseconds < 10 ? 1 : 0)} ms`));
}

// Of a run along an order: that it is one, the order, and the way back.
function showOrder(it) {
  at("along").hidden = !it.order;
  at("turns").classList.toggle("along", Boolean(it.order));
  if (!it.order) return at("along").replaceChildren();
  const back = make("button", { type: "button", class: "small", onclick: () => start() }, "Run in rounds again");
  at("along").replaceChildren("Replayed along the order ", make("code", { class: "order" }, it.order.join(" ") || "of no turn"), " ", back);
}

function showRun(it, turn) {
  performance.mark("ran");
  run = it;
  chosen = wanted = 0;
  markOld();
  showVerdict(it);
  showOrder(it);
  setPlaying(false);
  at("ran").hidden = at("rest").hidden = it.total === 0 && Boolean(it.order);
  showExpected(it);
  at("report").textContent = [...it.whole.ends, ...it.whole.report].join("\n");
  for (const id of ["chains", "judged", "chains-note", "trace-note"]) at(id).textContent = "";
  at("trace").value = "";
  at("turns").scrollTop = 0;
  drawOpenParts();
  choose(turn).then(() => performance.mark("shown"));
}

// The parts behind what was opened are asked for when they are opened.
function drawOpenParts() {
  if (at("chains-part").open) fillPart("chains", "--chains", (text) => { at("chains").textContent = text || "This run has no tokens."; });
  if (at("trace-part").open) fillPart("trace", "--trace", (text) => { at("trace").value = text; });
}

// Asks for a part once, and puts it where it is shown; one that is too long for that can be saved all the same.
async function fillPart(name, words, put) {
  const it = run;
  if (!it || it.parts.has(name)) return;
  it.parts.set(name, null);
  at(`${name}-note`).textContent = "..";
  put("");
  try {
    const answer = await askOf(machine, { name: "lwkt_show_turns", script: it.text, words: `${inNames(it.words)} ${words}`, isLongFile: true });
    if (it !== run) return;
    const isLong = Boolean(answer.file);
    it.parts.set(name, answer.file || textOf(answer));
    at(`${name}-note`).textContent = isLong ? `It has ${answer.file.size} bytes, too many to be shown here; it can be saved.` : "";
    put(isLong ? "" : textOf(answer));
  } catch (error) {
    it.parts.delete(name);
    at(`${name}-note`).textContent = error.message;
  }
}

// Gives a text, or the bytes of one, to the reader as a file.
function save(name, text, type) {
  const address = URL.createObjectURL(new Blob([text], { type }));
  make("a", { href: address, download: name }).click();
  setTimeout(() => URL.revokeObjectURL(address), 1000);
}

// The trace that is to be checked: the one in view, or of a long run the bytes of the one that isn't shown.
function wholeTrace() {
  const whole = run?.parts.get("trace");
  return at("trace").value || (whole instanceof Blob ? whole : "");
}

async function judge() {
  at("judged").textContent = "";
  try {
    const answer = await ask("lwkt_check_trace", wholeTrace());
    at("judged").textContent = textOf(answer).trim() || `status ${answer.status}`;
  } catch (error) {
    at("judged").textContent = error.message;
  }
}

// ---- Refusals.

function clearRefusal() {
  at("refusal").replaceChildren();
  at("mirror").replaceChildren();
  at("bubble").hidden = true;
  at("bubble").textContent = "";
  at("script").removeAttribute("aria-invalid");
}

// The line with the bad part, and signs under it.
function excerpt(script, { from, to }) {
  const begin = script.lastIndexOf("\n", from - 1) + 1;
  const end = (script.indexOf("\n", from) + 1 || script.length + 1) - 1;
  const left = Math.max(begin, from - 30), right = Math.min(end, Math.max(to, from + 1) + 30);
  const line = script.slice(left, right), under = " ".repeat(from - left) + "^".repeat(Math.max(1, Math.min(to, right) - from));
  return make("pre", {}, line, "\n", make("span", { class: "under" }, under));
}

// What is shown of any script that is refused.
function beginRefusal(answer) {
  putRunAway(answer.status === 3 ? "There was no memory for this run." : `The script was refused, fault ${answer.fault}.`);
  at("script").setAttribute("aria-invalid", "true");
}

function goThere(part, words = "Go there") {
  return make("button", { type: "button", class: "small", onclick: () => leadTo(part) }, words);
}

// The first items of a list, and behind them how many more there are.
function firstItems(all, itemOf) {
  const items = all.slice(0, mostItems).map(itemOf);
  return all.length > mostItems ? [...items, make("li", { class: "quiet" }, `and ${all.length - mostItems} more`)] : items;
}

// What is wrong with a script, each with its place: of a text the word there, else the part. The first is told in the editor too.
function showRefusal(script, answer, isText) {
  const wrongs = readWrongs(textOf(answer)), partOf = isText ? wordAt : partAt;
  beginRefusal(answer);
  if (!wrongs.length) return at("refusal").replaceChildren(make("p", {}, readRefusal(textOf(answer)) || "refused"));
  const parts = wrongs.slice(0, mostItems).map((wrong) => partOf(script, wrong.line, wrong.column));
  const items = firstItems(wrongs, (wrong, i) => make("li", {}, make("p", {}, `Line ${wrong.line}, column ${wrong.column}: ${wrong.said} `, goThere(parts[i])), excerpt(script, parts[i])));
  at("refusal").replaceChildren(...(isText ? [make("ol", {}, ...items)] : items[0].childNodes));
  markParts(script, parts, wrongs[0].said);
}

// What the text expects, and whether it holds.
function showExpected(it) {
  at("expected").hidden = it.verdicts.length === 0;
  at("verdicts").replaceChildren(...firstItems(it.verdicts, (verdict) => expectationItem(it.text, verdict, replay)));
}

// What a text expects: whether it holds, what it is, where it stands, and the order that decides it, if one does.
function expectationItem(script, { line, words, said, order }, go) {
  const [holds, color] = { holds: ["true", "good"], "doesn't hold": ["false", "bad"], "not decided": ["open", "open"] }[words], from = placeOf(script, line, 1);
  const there = goThere({ from, to: (script.indexOf("\n", from) + 1 || script.length + 1) - 1 }, `line ${line}`);
  const by = order ? [" decided by the order ", make("code", { class: "order" }, order.join(" ") || "of no turn"), " ", make("button", { type: "button", class: "small", onclick: () => go(order) }, "Replay")] : [];
  return make("li", { "data-holds": holds }, make("span", { class: color }, words), " ", make("code", {}, said), " ", there, ...by);
}

function leadTo(part) {
  at("script").focus();
  at("script").setSelectionRange(part.from, part.to);
}

// The lines of the editor, each with its number and in colors, laid out as the editor lays them out. A long script has neither.
let numbered = null;

function coloredLine(line, isText) {
  return make("div", {}, ...piecesOf(line || " ", isText).map(([kind, piece]) => (kind ? make("span", { class: kind }, piece) : piece)));
}

function numberLines() {
  const script = at("script").value, isShort = script.length <= mostMarked, isText = !/^\s*[{[]/.test(script);
  if (script === numbered) return;
  numbered = script;
  at("lines").replaceChildren(...(isShort ? script.split("\n").map((line) => coloredLine(line, isText)) : []));
  at("script").classList.toggle("colored", isShort);
  followScroll();
}

// Puts a script into the editor.
function putScript(script) {
  at("script").value = script;
  numberLines();
}

// Marks parts in the editor, and gives the first mark.
function putMarks(script, parts, kind) {
  const pieces = [];
  let done = 0;
  for (const { from, to } of parts.filter((part, i) => i === 0 || part.from >= parts[i - 1].to)) {
    pieces.push(script.slice(done, from), make("mark", {}, script.slice(from, to) || " "));
    done = to;
  }
  at("mirror").className = kind;
  at("mirror").replaceChildren(...pieces, script.slice(done), "\n");
  return at("mirror").querySelector("mark");
}

function scrollToMark(mark) {
  at("script").scrollTop = Math.max(0, mark.offsetTop - at("script").clientHeight / 3);
}

// Marks bad parts in the editor, with what is bad of the first under it.
function markParts(script, parts, said) {
  scrollToMark(putMarks(script, parts, "bad"));
  at("bubble").textContent = said;
  at("bubble").hidden = false;
  followScroll();
}

// Marks the step in the editor that a turn's thread asks for, if the script that ran still stands there. It is brought into view unless
// somebody is writing.
function markAsk(it, turn) {
  const box = at("script"), part = it.text === box.value && askPlace(turn, it.steps);
  if (!part) return at("mirror").replaceChildren();
  const mark = putMarks(it.text, [part], "asked"), isSeen = mark.offsetTop >= box.scrollTop && mark.offsetTop + mark.offsetHeight <= box.scrollTop + box.clientHeight;
  if (!isSeen && document.activeElement !== box) scrollToMark(mark);
  followScroll();
}

// Keeps the mark and what is under it beside the text.
function followScroll() {
  const box = at("script"), mark = at("mirror").querySelector("mark");
  at("mirror").scrollTop = at("lines").scrollTop = box.scrollTop;
  if (!mark || !at("bubble").textContent) return;
  const rows = mark.getClientRects(), last = rows[rows.length - 1], outer = at("editor").getBoundingClientRect();
  const top = last.bottom - outer.top + 3;
  at("bubble").style.top = `${top}px`;
  at("bubble").hidden = top < 0 || top > outer.height;
}

// ---- The form of what is typed, and every order of it.

const formWords = { text: "Read as a text of the language for scripts.", json: "Read as JSON." };
let formTimer = 0;

async function showForm() {
  const script = at("script").value;
  const { status } = await ask("lwkt_is_text", script).catch(() => ({ status: 3 }));
  if (script === at("script").value && status !== 3) putForm(status === 1);
}

function putForm(isText) {
  const form = isText ? "text" : "json";
  at("form").textContent = formWords[form];
  at("editor").dataset.form = form;
}

function showFormSoon() {
  clearTimeout(formTimer);
  formTimer = setTimeout(showForm, 150);
}

let search = null;

function sayOrders(text) {
  at("orders-status").textContent = text;
}

function setSearching(is) {
  at("orders-stop").hidden = !is;
  at("orders-bar").hidden = !is;
  at("orders").setAttribute("aria-busy", String(is));
}

function clearOrders() {
  if (search) stopWorker("it was stopped", searcher);
  search = null;
  for (const id of ["differ", "outcomes", "lost", "order-verdicts"]) at(id).replaceChildren();
  at("judged-orders").hidden = at("each").hidden = true;
  sayOrders("");
}

// Makes the run along an order, and leads to it.
function replay(order) {
  start(0, order).then(() => {
    at("look").scrollIntoView();
    at(!run?.total ? "look-head" : at("drawing").hidden ? "turns" : "drawing").focus({ preventScroll: true });
  });
}

// More than one outcome as a table, which stands before what is said of each; that is then closed.
function showDifferences(outcomes, names) {
  if (at("each").hidden || (outcomes.length > 1 && !at("differ").firstChild)) at("each").open = outcomes.length < 2;
  at("each").hidden = outcomes.length === 0;
  at("differ").replaceChildren(...(outcomes.length > 1 ? differTable(outcomes, names, replay) : []));
}

function showOrders(read, isLast, script) {
  sayOrders(sumWords(read, isLast));
  at("lost").replaceChildren(...lostParts(read.lost, replay));
  showDifferences(read.outcomes.slice(0, mostItems), namesOf(script));
  at("outcomes").replaceChildren(...firstItems(read.outcomes, (outcome) => outcomeItem(outcome, replay)));
  at("judged-orders").hidden = read.verdicts.length === 0;
  const rows = script.split("\n");
  at("order-verdicts").replaceChildren(...firstItems(read.verdicts, (verdict) => expectationItem(script, { ...verdict, said: saidAt(rows, verdict) }, replay)));
}

// Tries all orders with more and more states, up to the bound, and shows what was found so far.
async function searchUpTo(script, most, own) {
  for (const states of boundsUpTo(most)) {
    const answer = await askOf(searcher, { name: "lwkt_explore_orders", script, numbers: [states, mostTurns] });
    if (search !== own) return;
    if (![0, 2, 5].includes(answer.status)) return sayOrders(readWrongs(textOf(answer))[0]?.said || readRefusal(textOf(answer)) || `status ${answer.status}`);
    const read = readOrders(textOf(answer));
    const isLast = read.sum.bound !== "states" || states === most;
    showOrders(read, isLast, script);
    at("orders-bar").value = states / most;
    if (isLast) return;
  }
}

async function tryOrders() {
  clearOrders();
  const own = search = {};
  const most = Math.min(Math.max(1, Math.trunc(Number(at("states").value)) || 1), 1000000);
  at("states").value = most;
  at("orders-bar").value = 0;
  sayOrders("Trying every order ..");
  setSearching(true);
  try {
    await searchUpTo(at("script").value, most, own);
  } catch (error) {
    if (search === own) sayOrders(`${at("orders-status").textContent.replace(" Going on ..", "")} Ended before its end: ${error.message}.`);
  } finally {
    if (search === own || !search) setSearching(false);
    if (search === own) search = null;
  }
}

// ---- Links: the script behind the # of the address, packed where the browser can.

const hasPacking = typeof CompressionStream === "function";

// Bytes, a few at a time, since a few may unpack to a thousand times as many.
function inPieces(bytes, piece = 512) {
  let from = 0;
  const pull = (to) => {
    if (from >= bytes.length) return to.close();
    to.enqueue(bytes.slice(from, from + piece));
    from += piece;
  };
  return new ReadableStream({ pull }, { highWaterMark: 0 });
}

// What a stream makes of bytes; it is asked for no more once it gave more than `most`.
async function pass(bytes, stream, most = Infinity) {
  const reader = inPieces(bytes).pipeThrough(stream).getReader(), parts = [];
  let count = 0;
  while (count <= most) {
    const { done, value } = await reader.read();
    if (done) break;
    parts.push(value);
    count += value.length;
  }
  reader.cancel().catch(() => {});
  return new Uint8Array(await new Blob(parts).arrayBuffer());
}

async function fragmentOf(script, turn, order) {
  const plain = new TextEncoder().encode(script);
  const bytes = hasPacking ? await pass(plain, new CompressionStream("deflate-raw")) : plain;
  let text = "";
  for (let i = 0; i < bytes.length; i += 8192) text += String.fromCharCode(...bytes.subarray(i, i + 8192));
  const packed = btoa(text).replace(/\+/g, "-").replace(/\//g, "_").replace(/=+$/, "");
  return `#${hasPacking ? "z" : "p"}=${packed}${order ? `&order=${order.join("") || "-"}` : ""}${turn ? `&turn=${turn}` : ""}`;
}

// What the part of an address behind # says: a script, perhaps with an order and a turn, or why it isn't shown; null of no script.
async function readFragment(fragment) {
  const found = /^#([zp])=([\w-]+)(?:&order=([0-9]+|-))?(?:&turn=(\d+))?$/.exec(fragment);
  if (!found) return null;
  const [, kind, packed, order = null, turn = "0"] = found;
  if (packed.length > 2 * mostBytes || (order && order.length > mostTurns)) return { why: "it is too long" };
  const bytes = Uint8Array.from(atob(packed.replace(/-/g, "+").replace(/_/g, "/")), (sign) => sign.charCodeAt(0));
  const plain = kind === "z" ? await pass(bytes, new DecompressionStream("deflate-raw"), mostBytes) : bytes;
  if (plain.length > mostBytes) return { why: `it has ${byteWords}` };
  const script = new TextDecoder("utf-8", { fatal: true }).decode(plain), long = longWords(script);
  return long ? { why: `it has ${long}` } : { script, order: order && (order.match(/\d/g) || []).map(Number), turn: Number(turn) };
}

async function link() {
  const fragment = await fragmentOf(at("script").value, chosen, run?.text === at("script").value ? run.order : null);
  history.replaceState(null, "", fragment);
  try {
    await navigator.clipboard.writeText(location.href);
    say("The link is in the address, and copied.");
  } catch {
    say("The link is in the address.");
  }
}

// Takes the script of the address. False if there is none, or it isn't shown, which is said.
async function takeFragment() {
  const found = await readFragment(location.hash).catch(() => ({ why: "it can't be read, and may be cut off" }));
  if (!found) return false;
  if (found.why) {
    say(`The link's script isn't shown: ${found.why}.`);
    return false;
  }
  showLesson(null);
  nameScript(null);
  putScript(found.script);
  clearOrders();
  await start(found.turn, found.order);
  return true;
}

// Lets nothing into a box that would make its text too long to be shown. Many lines are put in or taken out at once, since a browser
// takes minutes to do it one by one.
function keepShort(event) {
  if (!/^(insert|delete)/.test(event.inputType) || event.isComposing) return;
  const box = event.target, from = box.selectionStart, to = box.selectionEnd;
  const added = event.data ?? event.dataTransfer?.getData("text/plain") ?? (event.inputType === "insertLineBreak" ? "\n" : "");
  if (added.length + to - from < 100) return;
  const { value } = box, long = longWords(value.slice(0, from) + added + value.slice(to));
  if (!long && countLines(added) + countLines(value.slice(from, to)) < 100) return;
  event.preventDefault();
  if (long) return say(`Nothing was put in: the text would have ${long}.`);
  box.setRangeText(added, from, to, "end");
  box.dispatchEvent(new Event("input"));
}

// ---- Examples, keys and the rest.

const examples = [...document.querySelectorAll("script.example")];

const lessons = examples.filter((it) => it.dataset.group === "lesson");
const titleOf = (it) => it.dataset.name.replace(/_/g, " ");

// The lesson that is shown, if one is; an edit of its script leaves it.
let lesson = null;

// Words in which backticks stand round code.
function codeParts(words) {
  return words.split("`").map((part, i) => (i % 2 ? make("code", {}, part) : part));
}

// A lesson's question, and its answer behind a click.
function showLesson(it) {
  lesson = it;
  const { question, answer, told } = it?.dataset || {};
  at("question").replaceChildren(...(it ? codeParts(question || `${titleOf(it)}: what will it print?`) : []));
  at("answered").replaceChildren(...[answer, told].filter(Boolean).map((words) => make("p", {}, ...codeParts(words))));
  at("answer").hidden = !it;
  at("answer").open = false;
  at("next").disabled = it !== null && it === lessons.at(-1);
}

// Says in the two lists whether the script is a lesson's, a test's or another one.
function nameScript(it) {
  const isLesson = it?.dataset.group === "lesson";
  at("lessons").value = isLesson ? it.dataset.name : "";
  at("example").value = it && !isLesson ? it.dataset.name : "";
  at("told").textContent = it && !isLesson ? it.dataset.told : "";
}

// The scripts of a group, or of a part of it.
function options(label, of) {
  return make("optgroup", { label }, ...of.map((it) => make("option", { value: it.dataset.name }, titleOf(it))));
}

function fillLists() {
  const parts = [...new Set(lessons.map((it) => it.dataset.part))];
  at("lessons").append(make("option", { value: "" }, "(own script)"), ...parts.map((part) => options(part, lessons.filter((it) => it.dataset.part === part))));
  at("example").append(make("option", { value: "" }, "(choose one)"), options("Tests, in JSON", examples.filter((it) => it.dataset.group === "test")));
}

function nextLesson() {
  openExample(lessons[lessons.indexOf(lesson) + 1].dataset.name);
}

function openExample(name) {
  const found = examples.find((it) => it.dataset.name === name);
  if (!found) return null;
  showLesson(found.dataset.group === "lesson" ? found : null);
  nameScript(found);
  putScript(found.textContent.replace(/^\n/, ""));
  clearOrders();
  return start();
}

function step(by) {
  choose((isDrawing ? wanted : chosen) + by);
}

// How far the next turn of the same processor is, on or back.
function toSame(way) {
  if (!run.order) return way * run.cpus;
  const from = isDrawing ? wanted : chosen;
  for (let turn = from + way; turn >= 0 && turn < run.total; turn += way) if (run.order[turn] === run.order[from]) return turn - from;
  return 0;
}

function turnsKey(event) {
  if (!run || event.ctrlKey || event.altKey || event.metaKey) return;
  const page = Math.max(1, Math.floor(at("turns").clientHeight / rowHeight) - 1);
  const moves = { ArrowDown: 1, ArrowUp: -1, ArrowRight: toSame(1), ArrowLeft: toSame(-1), PageDown: page, PageUp: -page, Home: -run.total, End: run.total };
  if (event.key === " ") togglePlay();
  else if (event.key in moves) step(moves[event.key]);
  else return;
  event.preventDefault();
}

function setTheme(isDark) {
  document.documentElement.dataset.theme = isDark ? "dark" : "light";
  at("theme").setAttribute("aria-pressed", String(isDark));
}

function listen() {
  at("run").addEventListener("click", () => start());
  at("stop").addEventListener("click", () => stopWorker("it was stopped"));
  at("link").addEventListener("click", link);
  at("judge").addEventListener("click", judge);
  at("save-chains").addEventListener("click", () => save("sections.txt", run.parts.get("chains") || "", "text/plain"));
  at("save-trace").addEventListener("click", () => save("trace.json", wholeTrace(), "application/json"));
  at("save-picture").addEventListener("click", () => save("run.svg", run.drawn || "", "image/svg+xml"));
  for (const id of ["lessons", "example"]) at(id).addEventListener("change", () => openExample(at(id).value));
  at("next").addEventListener("click", nextLesson);
  at("script").addEventListener("input", noteEdit);
  at("orders-start").addEventListener("click", tryOrders);
  at("orders-stop").addEventListener("click", () => stopWorker("it was stopped", searcher));
  at("script").addEventListener("scroll", followScroll);
  for (const id of ["script", "trace"]) at(id).addEventListener("beforeinput", keepShort);
  at("trace").addEventListener("input", () => { at("judged").textContent = ""; });
  new ResizeObserver(followScroll).observe(at("editor"));
  document.addEventListener("keydown", (event) => {
    if (event.key !== "Enter" || !(event.ctrlKey || event.metaKey)) return;
    event.preventDefault();
    start();
  });
  for (const id of ["turns", "drawing"]) at(id).addEventListener("keydown", turnsKey);
  at("turns").addEventListener("scroll", drawRows);
  new ResizeObserver(drawRows).observe(at("turns"));
  at("rows").addEventListener("click", (event) => {
    const row = event.target.closest("[data-turn]");
    if (row) choose(Number(row.dataset.turn));
  });
  at("drawing").addEventListener("click", (event) => {
    const group = event.composedPath().find((it) => it.dataset?.turn);
    if (group) choose(Number(group.dataset.turn));
  });
  for (const [id, by] of [["first", -Infinity], ["back", -1], ["forth", 1], ["last", Infinity]]) {
    at(id).addEventListener("click", () => (Number.isFinite(by) ? step(by) : run && choose(by < 0 ? 0 : run.total - 1)));
  }
  at("play").addEventListener("click", togglePlay);
  at("number").addEventListener("change", () => choose(Number(at("number").value)));
  at("rounds-back").addEventListener("click", () => step(-pictureRounds * (run.order ? 1 : run.cpus)));
  at("rounds-forth").addEventListener("click", () => step(pictureRounds * (run.order ? 1 : run.cpus)));
  at("chains-part").addEventListener("toggle", drawOpenParts);
  at("trace-part").addEventListener("toggle", drawOpenParts);
  at("theme").addEventListener("click", () => setTheme(document.documentElement.dataset.theme !== "dark"));
  matchMedia("(prefers-color-scheme: dark)").addEventListener("change", (event) => setTheme(event.matches));
  addEventListener("hashchange", takeFragment);
}

async function begin() {
  setTheme(matchMedia("(prefers-color-scheme: dark)").matches);
  fillLists();
  listen();
  if (typeof WebAssembly !== "object") return say("This browser has no WebAssembly.");
  if (await takeFragment()) return;
  const why = at("status").textContent;
  await openExample(lessons[0].dataset.name);
  if (why) say(why);
}

begin();
