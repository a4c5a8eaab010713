// The module of a page on all examples, beside the program of this tree: module.mjs PAGE.
import { readFileSync } from "node:fs";
import { callProgram, check, exampleNames, examples, finish, load, namesIn, read, same, statusOf } from "./tools.mjs";

const { Library } = load("module.js", ["Library"]);
const found = /<script type="application\/octet-stream" id="module">([^<]*)<\/script>/.exec(readFileSync(process.argv[2], "utf8"));
const bytes = Buffer.from(found[1], "base64");
const library = new Library(bytes);
// The searches are compared up to so many states.
const mostStates = 3000;
const encoder = new TextEncoder(), decoder = new TextDecoder();

function call(name, script, words, numbers = []) {
  const texts = [typeof script === "string" ? encoder.encode(script) : script];
  if (words !== undefined) texts.push(encoder.encode(words));
  const answer = library.call(name, texts, numbers);
  return { ...answer, text: decoder.decode(answer.bytes) };
}

// A call beside the program that does the same: the same status, and the same text where the run is shown.
function compare(name, script, words, what) {
  const got = call(name, script, words), wanted = callProgram(name, script, words);
  const isShown = wanted.status === 0 || wanted.status === 2 || wanted.status === 4;
  const said = wanted.text.split("\n")[0];
  const fits = isShown ? got.text === wanted.text || (name === "lwkt_check_trace" && got.text.startsWith(said)) : true;
  check(got.status === wanted.status && got.fault === wanted.fault && got.place === wanted.place && fits, `${what}: ${words || name}, status ${got.status} for ${wanted.status}, fault ${got.fault} at ${got.place} for ${wanted.fault} at ${wanted.place}\n${got.text.slice(0, 300)}\nwanted\n${wanted.text.slice(0, 300)}`);
  return got;
}

function tryExample(name) {
  const script = read(examples, `${name}.json`);
  const got = compare("lwkt_run_turns", script, undefined, name);
  same(got.status, statusOf(name), `${name}: status`);
  if (got.status !== 1) same(got.text, read(examples, `${name}.out`), `${name}: report`);
  for (const words of ["turns", "turns --svg", "turns --chains", "turns --trace", "turns --rounds 1..3", "turns --turns 2..5 --svg", "turns --rounds 100000..", "turns --rounds 3..1"]) compare("lwkt_show_turns", script, words, name);
  if (got.status !== 1) compareOrders(script, name);
  for (const words of ["turns --order 0", "turns --order -", "turns --order 09", "turns --order 0 --rounds 0..1"]) compare("lwkt_show_turns", script, words, name);
  const trace = call("lwkt_show_turns", script, "turns --trace");
  if (trace.status !== 1) compare("lwkt_check_trace", trace.text, undefined, `${name}: its trace`);
}

// A refused script or trace is told as the program tells it where its errors go, but for the line of the fault.
function tryRefusal(folder, name, call) {
  const script = readFileSync(`${examples}/${folder}/${name}.json`);
  const got = compare(call, script, call === "lwkt_show_turns" ? "turns" : undefined, name);
  same(got.text, read(examples, folder, `${name}.err`).replace(/^lwkt_check: fault .*\n/, ""), `${name}: why it is refused`);
}

// Bytes of a script changed at random: the same answers as the program gives.
function trySpoiled(name, times) {
  let seed = 1;
  const next = (limit) => { seed = (seed * 48271) % 2147483647; return seed % limit; };
  const script = readFileSync(`${examples}/${name}.json`);
  for (let i = 0; i < times; i += 1) {
    const spoiled = Buffer.from(script);
    for (let j = 0; j <= next(3); j += 1) spoiled[next(spoiled.length)] = [next(256), 48 + next(10), 44, 34][next(4)];
    compare("lwkt_show_turns", spoiled, "turns", `${name}, spoiled ${i}`);
  }
}

// A text of the course: it is one, its JSON is the script beside it, and its report is that of this.
function tryCourse(name) {
  const text = read(examples, "litmus", `${name}.lwkt`), json = read(examples, "litmus/json", `${name}.json`);
  same([call("lwkt_is_text", text).status, call("lwkt_is_text", json).status], [1, 0], `${name}: its form`);
  same(JSON.parse(call("lwkt_text_json", text).text), JSON.parse(json), `${name}: its JSON`);
  const told = call("lwkt_run_text", text);
  check(told.text.startsWith(callProgram("lwkt_run_turns", json).text), `${name}: its report`);
  const wanted = callProgram("lwkt_run_text", text);
  same([told.status, told.text], [wanted.status, wanted.text], `${name}: its report and its expectations`);
  for (const words of ["turns", "turns --names", "turns --names --svg", "turns --names --order 0 --chains"]) compare("lwkt_show_turns", text, words, name);
  for (const script of [text, json]) compareOrders(script, name);
}

// Every order of a script, beside the program that tries them, and each outcome's run along its order beside the one that shows it.
function compareOrders(script, name) {
  const bounds = [mostStates, 100000];
  const got = call("lwkt_explore_orders", script, undefined, bounds), wanted = callProgram("lwkt_explore_orders", script, bounds.join(" "));
  same([got.status, got.fault, got.text], [wanted.status, wanted.fault, wanted.text], `${name}: its outcomes`);
  if (call("lwkt_is_text", script).status === 1) return;
  const orders = [...got.text.matchAll(/^outcome \d+ \w+, order (.*)$/gm)].slice(0, 3);
  for (const [, order] of orders) for (const rest of ["", " --svg"]) compare("lwkt_show_turns", script, `turns --order ${order.replaceAll(" ", "")}${rest}`, name);
}

// What docs/EXPLORE.md shows.
function tryOrders() {
  const told = read(examples, "../docs/EXPLORE.md");
  const wanted = told.slice(told.indexOf("    outcome 1"), told.indexOf("Two threads call each other")).split("\n").map((line) => line.trim()).filter(Boolean);
  const script = read(examples, "calls_that_wait_for_each_other.json");
  same(call("lwkt_explore_orders", script, undefined, [1000, 1000]).text.trim().split("\n"), wanted, "the orders of two calls");
}

// A trap is told, and the next call has a new module.
function tryTrap() {
  const { exports } = library.instance;
  library.instance = { exports: { ...exports, lwkt_run_turns: () => exports.page_give(2n ** 50n) } };
  let told = null;
  try {
    library.call("lwkt_run_turns", [encoder.encode("{}")]);
  } catch (error) {
    told = error;
  }
  check(told instanceof WebAssembly.RuntimeError, `a trap is told: ${told}`);
  same(call("lwkt_run_turns", read(examples, "crossed_lists.json")).text, read(examples, "crossed_lists.out"), "after a trap");
}

// The module goes on after a call that fails, and gives back what memory it takes for calls.
function tryAnew() {
  const script = read(examples, "crossed_lists.json");
  const wanted = call("lwkt_run_turns", script).text;
  let isTold = false;
  try {
    library.call("lwkt_run_turns", [{ length: 2 ** 45 }]);
  } catch {
    isTold = true;
  }
  check(isTold, "a call without memory is told");
  same(call("lwkt_run_turns", script).text, wanted, "and the next one goes on");
  const before = library.instance.exports.memory.buffer.byteLength;
  for (let i = 0; i < 5000; i += 1) call("lwkt_run_turns", script);
  same(library.instance.exports.memory.buffer.byteLength, before, "5000 calls take no more memory than one");
}

function tryLong() {
  const thread = (cpu) => ({ cpu, repeat: 1000000, steps: [["get", 0], ["add", 0, 1], ["rel", 0]] });
  const script = JSON.stringify({ version: 1, turns: 500000, idle: 1, cpus: 2, tokens: [{ cells: [0], law: "tally", param: 0, gen: 0 }], messages: [], threads: [thread(0), thread(1)] });
  const since = performance.now();
  const got = call("lwkt_run_turns", script);
  console.log(`a million turns: ${(performance.now() - since).toFixed(0)} ms; the module has ${bytes.length} bytes`);
  same(got.text, callProgram("lwkt_run_turns", script).text, "a million turns");
  check(library.instance !== null, "which aren't kept, so that the module is");
  compare("lwkt_show_turns", script, "turns --turns 5..9", "a million turns, of which five are shown");
  check(library.instance === null, "after which the module is made anew");
}

for (const name of exampleNames()) tryExample(name);
for (const name of namesIn("refused", ".json")) for (const call of ["lwkt_run_turns", "lwkt_show_turns"]) tryRefusal("refused", name, call);
for (const name of namesIn("traces", ".json")) compare("lwkt_check_trace", read(examples, "traces", `${name}.json`), undefined, name);
for (const name of namesIn("traces/refused", ".json")) tryRefusal("traces/refused", name, "lwkt_check_trace");
for (const name of ["crossed_lists", "server_of_three"]) trySpoiled(name, 200);
for (const name of namesIn("litmus", ".lwkt")) tryCourse(name);
tryOrders();
tryTrap();
tryAnew();
tryLong();
finish();
