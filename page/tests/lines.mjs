// The reading of lines and scripts, on what the program of this tree writes.
import { join } from "node:path";
import { callProgram, check, exampleNames, examples, finish, namesIn, read, same, statusOf } from "./tools.mjs";
import { load } from "./tools.mjs";

const lines = load("lines.js", ["readRun", "readEvent", "readOpenings", "partsOf", "readWrongs", "readRefusal", "openState", "copyState", "tell", "tellFirstWords", "recordWords", "entryWords", "askPlace"]);
const texts = load("texts.js", ["verdictsIn", "saidAt", "namesOf", "sentencesOf", "numberSteps", "textSteps", "piecesOf", "knownWords"], "script.js");
const scripts = load("script.js", ["jsonSteps", "cutScript", "longWords", "membersOf", "partAt", "placeOf", "skipValue"]);
const orders = load("orders.js", ["readForm", "readSum", "readOrders", "differences"], "lines.js", "texts.js", "script.js");

// Every line of a run is read: all its turns, and the report behind them.
function tryExample(name) {
  const script = read(examples, `${name}.json`);
  const { text, status } = callProgram("lwkt_show_turns", script, "turns");
  if (status === 1) return check(statusOf(name) === 1, `${name} is refused`);
  const run = lines.readRun(text);
  same(run.turns.length, text.split("\n").filter((line) => line.startsWith("turn ")).length, `${name}: turns`);
  check(run.turns.every((turn) => turn.outcome && (turn.thread || turn.idle)), `${name}: each turn ran a thread, or none`);
  const told = run.turns.reduce((sum, turn) => sum + turn.events.length, 0);
  same(told, (text.match(/^turn .*$/gm).join("\n").match(/; (token|message) \d+: /g) || []).length, `${name}: events`);
  same(`${run.report.join("\n")}\n`, read(examples, `${name}.out`), `${name}: report`);
  tryStates(name, script, run);
}

// The state after all turns is that of the report, but for what is given up at the end; and the holders named are those that run.
function tryStates(name, script, run) {
  const cut = callProgram("lwkt_show_turns", scripts.cutScript(script, 1), "turns --chains");
  const openings = lines.readOpenings(cut.text);
  const { cpus, messages, tokens } = JSON.parse(script), records = (all) => all.map(({ record }) => record ?? null);
  const opening = JSON.parse(callProgram("lwkt_show_turns", script, "turns --order - --trace").text);
  same([opening.cpus, opening.messages, records(opening.tokens)], [cpus, messages, records(tokens)], `${name}: the opening of its trace`);
  const state = lines.openState(openings, messages, tokens.map(({ record }) => (typeof record === "string" ? lines.recordWords(record) : null)));
  lines.tellFirstWords(state, run.turns);
  for (const turn of run.turns) lines.tell(state, turn);
  if (run.ends.some((line) => line.startsWith("at the end"))) return;
  state.tokens.forEach((token, number) => {
    const line = run.report.find((it) => it.startsWith(`token ${number} gen `));
    same(`token ${number} gen ${token.generation} cells ${token.row.join(" ") || "-"}`, line, `${name}: token ${number} after all turns`);
    check(token.holders === "free", `${name}: token ${number} is free after all turns`);
    const record = run.report.find((it) => it.startsWith(`record ${number} `))?.split(" ")[2];
    same(token.record, record === undefined ? null : lines.recordWords(record === "-" ? "" : record), `${name}: the record of token ${number} after all turns`);
  });
  state.messages.forEach((post, number) => {
    const line = run.report.find((it) => it.startsWith(`message ${number} round `));
    const place = { "at": "rest", "out": "out", "with": "with", "back": "back" }[post.place.split(" ")[0]];
    same(`message ${number} round ${post.round} ${place}`, line, `${name}: message ${number} after all turns`);
  });
}

// A script that is cut off is the same but for its rounds, and its run is the first part of the run.
function tryCuts(name) {
  const script = read(examples, `${name}.json`);
  const whole = callProgram("lwkt_show_turns", script, "turns");
  if (whole.status === 1) return;
  const all = lines.readRun(whole.text);
  const cpus = JSON.parse(script).cpus;
  for (const rounds of [1, 2, 5]) {
    if (rounds * cpus >= all.total) return;
    const cut = lines.readRun(callProgram("lwkt_show_turns", scripts.cutScript(script, rounds), "turns").text);
    same(cut.turns.map((turn) => [turn.number, turn.thread, turn.events.map((it) => it.text)]), all.turns.slice(0, rounds * cpus).map((turn) => [turn.number, turn.thread, turn.events.map((it) => it.text)]), `${name}: ${rounds} rounds`);
  }
}

// A text that is cut off is what its JSON is that is cut off.
function tryTextCuts(name) {
  const [text, json] = [`${name}.lwkt`, `json/${name}.json`].map((file) => read(examples, "litmus", file));
  const [one, other] = [scripts.cutScript(text, 2, true), scripts.cutScript(json, 2)].map((script) => callProgram("lwkt_show_turns", script, "turns"));
  same(one, other, `${name}: a text that is cut off`);
}

// How the report of a run that is cut off has a thread, against what its processor's last turn says of it.
function fits(thread, turn) {
  if (turn.idle) return thread.state !== "running";
  if (turn.thread !== thread.id) return thread.state !== "running";
  if (turn.outcome.startsWith("ends")) return /^(exited|faulted)/.test(thread.state);
  if (turn.outcome.startsWith("waits")) return /^(ready|waiting)$/.test(thread.state);
  return thread.state === "running";
}

// What the page takes for how threads stand after a turn: a run that is cut off after its round.
function tryThreads(name) {
  const script = read(examples, `${name}.json`);
  const whole = callProgram("lwkt_show_turns", script, "turns");
  if (whole.status === 1) return;
  const all = lines.readRun(whole.text), { cpus } = JSON.parse(script);
  for (let round = 0; round < Math.min(20, all.total / cpus - 1); round += 1) {
    const cut = lines.readRun(callProgram("lwkt_show_turns", scripts.cutScript(script, round + 1), "turns --turns 0..0").text);
    const odd = cut.threads.filter((thread) => !fits(thread, all.turns[round * cpus + Number(thread.id.split(".")[0])]));
    same(odd, [], `${name}: threads as round ${round} ends`);
    check(cut.threads.every((thread) => /^(exited|faulted)/.test(thread.state) || cut.whys.has(thread.id)), `${name}: why they stand so`);
  }
}

// The bad part of a refused script is found where the program says that it begins.
function tryRefusal(name) {
  const script = read(examples, "refused", `${name}.json`);
  const [place] = lines.readWrongs(read(examples, "refused", `${name}.err`));
  if (!check(place?.said.length > 0, `${name}: something is said, with its place`)) return;
  const part = scripts.partAt(script, place.line, place.column);
  const rows = script.split("\n");
  const bytes = Buffer.byteLength(script.slice(script.lastIndexOf("\n", part.from - 1) + 1, part.from));
  check(part.from >= script.length - 1 || bytes === place.column - 1, `${name}: column ${place.column} is byte ${bytes}`);
  check(place.line <= rows.length && (part.to > part.from || !script), `${name}: a part is marked`);
}

// A message that was sent with priority is urgent until it is at rest again, on its way back too.
function tryUrgent() {
  const script = read(examples, "urgent_request_first.json"), run = lines.readRun(callProgram("lwkt_show_turns", script, "turns").text);
  const state = lines.openState([], JSON.parse(script).messages), seen = [];
  for (const turn of run.turns) {
    lines.tell(state, turn);
    seen.push(state.messages.map((post) => (post.isUrgent ? post.place.split(" ")[0] : "-")).join(" "));
  }
  same([...new Set(seen)], ["- - -", "- out -", "- with -", "- back -"], "which messages are urgent, and where");
}

// Where the steps of each thread stand in a text, as the page asks for it.
function stepsOfText(text) {
  const sentences = texts.sentencesOf(text), [numbered, json] = [texts.numberSteps(sentences), text].map((it) => callProgram("lwkt_text_json", it).text);
  return texts.textSteps(sentences, numbered, json);
}

// What stands where the asks of a run do: of each turn the words there, or nothing.
function asksOf(script, steps, words = "turns") {
  const { turns } = lines.readRun(callProgram("lwkt_show_turns", script, words).text);
  return turns.map((turn) => ({ ...turn, part: lines.askPlace(turn, steps) })).map(({ part, ...turn }) => ({ ...turn, words: part && script.slice(part.from, part.to) }));
}

// Each turn that makes a step has its place in JSON: the same step where it computes nothing, else one of its kind.
function tryPlaces(name, script) {
  const steps = scripts.jsonSteps(script), asks = asksOf(script, steps).filter(({ step }) => step?.startsWith("step "));
  const wordOf = (text) => JSON.parse(text)[0], isFixed = JSON.parse(script).version < 3;
  const odd = asks.filter(({ ask, words }) => (isFixed ? JSON.stringify(JSON.parse(words)) !== ask && wordOf(words) !== "wrec" : wordOf(words) !== wordOf(ask)));
  same(odd.map(({ line, words }) => [line, words]), [], `${name}: where its asks stand in JSON`);
  return asks.length;
}

// The same of a text: the sentence has the word of the ask. Of each thread all steps are known.
function tryTextPlaces(folder, name) {
  const text = read(examples, folder, `${name}.lwkt`), json = callProgram("lwkt_text_json", text).text;
  if (!json.startsWith("{")) return same([...stepsOfText(text)], [], `${name}: a text that is refused`);
  const asks = asksOf(text, stepsOfText(text)).filter(({ step }) => step?.startsWith("step "));
  const odd = asks.filter(({ ask, words }) => !new RegExp(`\\b${JSON.parse(ask)[0]}\\b`).test(words));
  same(odd.map(({ line, words }) => [line, words]), [], `${name}: where its asks stand`);
  same(tryPlaces(name, json), asks.length, `${name}: as many in JSON`);
}

// The words of the asks of a thread, one after another.
const wordsOf = (text, thread, words) => asksOf(text, stepsOfText(text), words).filter((turn) => turn.thread === thread).map((turn) => turn.words ?? null);

// Branches, loops and repeated sentences: the sentence is the one that was written, and the same one each time.
function tryBranches() {
  const second = read(examples, "version3/second_way.lwkt"), philosophers = read(examples, "version3/philosophers.lwkt");
  same(wordsOf(second, "0.0"), ["got = try near", "write near.n 1", "rel near", null], "the first branch");
  same(wordsOf(second, "0.0", "turns --order 10000000"), ["got = try near", "get far", "write far.n 1", "rel far", null], "the second branch");
  const forks = ["get fork[(i + 1) % N]", "get fork[i]", "write fork[i].meals 1", "rel fork[i]", "rel fork[(i + 1) % N]"];
  same(wordsOf(philosophers, "4.0"), [...forks, null], "the thread of the last number, in its second branch");
  const rows = (text, thread) => asksOf(text, stepsOfText(text)).filter((turn) => turn.thread === thread).map((turn) => text.slice(0, lines.askPlace(turn, stepsOfText(text))?.from ?? 0).split("\n").length);
  const looped = "token t\nthread a on 0 # get t; end\nvar x = 0; var y = 0\ntimes 2 ; get t\n\n while x < 2:; x = x + 1; yield\nend; if x = 9\nrel t; else; rel t; end\nx = 1\nend\nassert x = 0\n";
  same(rows(looped, "0.0"), [4, 6, 6, 8, 4, 6, 8, 11], "lines of steps in loops, and of an assertion");
  const repeated = "const N = 2\nthread z on 1\nyield\nfor i in 0..N\nthread a[i] on i, repeat 2\nvar x = 0\nif x = 0\nfor j in 1..3\nget t[j]; rel t[j]\nend\nend\nend\nyield\nfor i in 0..3; token t[i]; end\nalways: ended\n";
  same([rows(repeated, "1.0"), rows(repeated, "0.0")], [[3, 1], [9, 9, 9, 9, 9, 9, 9, 9, 1]], "lines of steps that are repeated");
  same(rows(repeated, "1.1"), [9, 9, 9, 9, 13, 9, 9, 9, 9, 13, 1], "and of one behind them");
}

// Where the sentences aren't known, or a copy would have other steps, no place is known.
function tryUnknown() {
  const text = "token t\nthread a on 0\nget t; rel t\n", sentences = texts.sentencesOf(text), json = callProgram("lwkt_text_json", text).text;
  const numbered = (copy) => texts.textSteps(sentences, callProgram("lwkt_text_json", copy).text, json);
  same([...numbered(texts.numberSteps(sentences))], [["0.0", sentences.slice(2)]], "places of two steps");
  same([...numbered("thread a on 0\nwrite 0.0 2")], [], "another count of steps");
  same([...numbered("thread a on 1\nwrite 0.0 2\nwrite 0.0 3")], [], "another thread");
  same([...numbered("")], [], "no thread");
  same([...scripts.jsonSteps("")], [], "no script");
  same(lines.askPlace({ thread: "0.0", step: "after its steps" }, new Map([["0.0", [1]]])), undefined, "no step");
  same(lines.askPlace({ idle: new Map() }, new Map()), undefined, "no thread runs");
  same(["for i in 0..2; token t[i]; end; token s", "const N = 1\nthread a on N\nthread b on 1"].map((it) => texts.namesOf(it).threads.size + texts.namesOf(it).tokens.length), [0, 0], "names that can't be counted");
  const blanks = `thread a on 0\n${" ".repeat(1000000)}yield${" ".repeat(1000000)};x`;
  same(texts.sentencesOf(blanks).map(({ said }) => said), ["thread a on 0", "yield", "x"], "a million blanks");
}

// The pieces of a line are the line, each of its kind; and of each text of the examples the first word of a sentence is known, or is assigned to.
function tryColors() {
  const kinds = (line, isText) => texts.piecesOf(line, isText).filter(([kind]) => kind).map(([kind, piece]) => `${kind} ${piece}`);
  same(kinds("token a: any, cells x=5 # of 2", true), ["word token", "word any", "word cells", "number 5", "comment # of 2"], "a sentence in colors");
  same(kinds("write fork[i].x 2x", true), ["word write", "number 2x"], "names have no color");
  same(kinds('"law":"any","cells":[-5, 1e3], "a\\"b" : null', false), ['word "law"', 'string "any"', 'word "cells"', "number -5", "number 1e3", 'word "a\\"b"'], "JSON in colors");
  same(kinds('{"open', false), ['string "open'], "a string without an end");
  for (const folder of ["litmus", "version3"]) for (const name of namesIn(folder, ".lwkt")) tryColorsOf(read(examples, folder, `${name}.lwkt`), name);
}

function tryColorsOf(text, name) {
  check(text.split("\n").every((line) => texts.piecesOf(line, true).map(([, piece]) => piece).join("") === line), `${name}: its pieces are its lines`);
  const unknown = texts.sentencesOf(text).filter(({ said, word }) => !texts.knownWords.has(word) && !/^[^=:]*=/.test(said) && !/^[\w.]+:$/.test(word));
  same(unknown.map(({ said }) => said), [], `${name}: the words that begin its sentences are known`);
}

for (const name of exampleNames()) tryExample(name);
for (const name of exampleNames()) if (statusOf(name) !== 1) tryPlaces(name, read(examples, `${name}.json`));
for (const folder of ["litmus", "version3"]) for (const name of namesIn(folder, ".lwkt")) tryTextPlaces(folder, name);
tryPlaces("poll", read(examples, "version3/poll.json"));
tryBranches();
tryUnknown();
for (const name of ["crossed_lists", "dining_philosophers", "server_of_three", "abort_before_and_after"]) tryCuts(name);
for (const name of namesIn("litmus", ".lwkt")) tryTextCuts(name);
for (const name of exampleNames()) tryThreads(name);
for (const name of namesIn("refused", ".json")) tryRefusal(name);

same(lines.partsOf("18446744073709551615"), { exclusive: 1, mark: 1, count: 65535, generation: "70368744177663" }, "parts of the largest word");
same(lines.partsOf("9"), { exclusive: 1, mark: 0, count: 2, generation: "0" }, "held exclusively by three references");
same(scripts.cutScript('{"turns": 7 , "a":{"turns":9},"t\\u0075rns":8}', 3), '{"turns": 3 , "a":{"turns":9},"t\\u0075rns":3}', "a cut of a name with an escape, and not of an inner one");
same(scripts.cutScript('{"x":"\\"}","cells":[18446744073709551615],"turns":7}', 3), '{"x":"\\"}","cells":[18446744073709551615],"turns":3}', "numbers stay as they are");
const told = "lwkt: standard input:6:9: a token is wanted here\n    get acounts\n        ^\n    did you mean `accounts`?\nlwkt: standard input:7:1: no\n    no\n    ^\n    did you mean `x`?\nlwkt: standard input:1:5: a part (fault 33 at 1)\n";
same(lines.readWrongs(told), [{ line: 6, column: 9, said: "a token is wanted here (accounts?)" }, { line: 7, column: 1, said: "no (x?)" }, { line: 1, column: 5, said: "a part" }], "what is wrong, with its place");
same(["lwkt: the range\n", "lwkt: standard input: the order", ""].map(lines.readRefusal), ["the range", "the order", ""], "refusals without a place");
same(scripts.partAt('{"a":[1,{"b":2}]}', 1, 9), { from: 8, to: 15 }, "a part that is an object");
same(scripts.partAt("[\u00e4, 1]\n[2]", 1, 6), { from: 4, to: 5 }, "columns are bytes");
same(scripts.partAt("", 1, 1), { from: 0, to: 0 }, "an empty text");
same(scripts.placeOf("a\nb\nc", 3, 1), 4, "a line");
check(scripts.skipValue("[[[", 0) === 3, "a text that is cut off");
check(join("a", "b") === "a/b", "paths");
same(["", "6869", "00ff", "226162", "61".repeat(24), "61".repeat(40), "00".repeat(40)].map(lines.recordWords), ["empty", "'hi'", "00ff", "226162", `'${"a".repeat(24)}'`, `'${"a".repeat(24)}'.., 40 bytes`, `${"00".repeat(24)}.., 40 bytes`], "records in words");
same(["b=-", "b=6869", "v=7", "b=00ff"].map(lines.entryWords), ["b=-", "b='hi'", "v=7", "b=00ff"], "records in a log");
const odd = lines.readRun("turn 0, round 0, processor 0, thread 0.0, step 1: [\"rrec\",0]: record 'a; token 1: b'; token 0: record 'a; token 1: b' read; token 0: record '; ' stored\n").turns[0];
same([odd.outcome, odd.events.map((it) => [it.number, it.record])], ["record 'a; token 1: b'", [[0, "'a; token 1: b'"], [0, "'; '"]]], "a record with semicolons");
const computing = lines.readRun("turn 10, round 5, processor 0, thread 0.0, v0 = 1; v0 = 0? no; step 2: [\"write\",0,0,1]: done; token 0: cell 0 0 -> 1\n").turns[0];
same([computing.made, computing.step, computing.ask, computing.outcome, computing.events.length], ["v0 = 1; v0 = 0? no", "step 2", '["write",0,0,1]', "done", 1], "what a thread computed before its step");
same([odd.made, odd.step], ["", "step 1"], "a thread that computed nothing");
same(texts.verdictsIn(["4: holds", "4: doesn't hold, order 0 1", "5: not decided", "x"]).map((it) => [it.line, it.place, it.words, it.order]), [[4, 0, "holds", null], [4, 1, "doesn't hold", [0, 1]], [5, 0, "not decided", null]], "verdicts");
tryUrgent();
tryColors();
same(["a".repeat(1048576), "\n".repeat(2999), "\r\n".repeat(2999), ""].map(scripts.longWords), [null, null, null, null], "texts that are short enough");
same(["a".repeat(1048577), "\u00e4".repeat(524289)].map((it) => scripts.longWords(it).slice(0, 23)), Array(2).fill("more than 1048576 bytes"), "too many bytes");
same(["\n", "\r", "\r\n"].map((it) => scripts.longWords(it.repeat(3000)).slice(0, 20)), Array(3).fill("more than 3000 lines"), "too many lines");
same(["3 outcomes; 64 states, 89 turns; complete", "1 outcome; 1 state, 0 turns; a part (states)", "1 outcome; 2 states, 3 turns; a part"].map(orders.readSum).map((it) => [it.isComplete, it.bound]), [[true, null], [false, "states"], [false, null]], "how a search ended");
// The table of what outcomes differ in: of any two outcomes some column differs, and each column has its values.
function tryDifferences(script) {
  const { outcomes } = orders.readOrders(callProgram("lwkt_explore_orders", script, "64000 100000").text);
  const found = orders.differences(outcomes, texts.namesOf(script)), rows = found.rows.map((it) => it.join("; "));
  check(new Set(rows).size === outcomes.length && found.heads.every(({ count }, i) => count === new Set(found.rows.map((it) => it[i])).size && count > 1), `outcomes differ: ${rows}`);
  return [found.heads.map(({ head, count }) => `${head} ${count}`), found.rows.at(-1), found.same];
}
same(tryDifferences(read(examples, "litmus/14_a_sum.lwkt")), [["log of auditor 3"], ["v=5 v=5 v=5 v=5"], ["accounts gen 1", "accounts.from 2", "accounts.to 8", "clerk exited", "auditor exited"]], "what differs, with names");
same(tryDifferences(read(examples, "crossed_lists.json")).slice(0, 2), [["token 0 cell 0 2", "log of thread 0.0 3"], ["8", "v=7 v=8"]], "with numbers");
same(tryDifferences(read(examples, "litmus/24_drops.lwkt"))[0], ["ends 2", "note round 2", "sender 2", "log of sender 3", "receiver 2", "log of receiver 3"], "with messages and ends");
same(texts.namesOf("token t: any, cells a=1 2, 3 b 4\ntoken s: tally\ntoken r: cells x=N y=1").cells, [["a", "", "", "b"], [], ["y"]], "names of cells");
same(orders.readForm("or message 0 round 1 rest; message 1 round 1 back, order 0 1 1 0"), { said: "message 0 round 1 rest; message 1 round 1 back", order: [0, 1, 1, 0] }, "how else messages may stand");
const named = texts.namesOf("# token no\ntoken a: any, cells 1; token,b # token c\n thread t on 1, repeat 2:\nget a; thread u on 0\nmessage m of t\nthread v on 1");
same([named.tokens, named.messages, [...named.threads]], [["a", "b"], ["m"], [["1.0", "t"], ["0.0", "u"], ["1.1", "v"]]], "the names of a text");
finish();
