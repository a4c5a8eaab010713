// What the tests share: counting, the parts of a page, and the program of this tree.
import { spawnSync } from "node:child_process";
import { existsSync, readFileSync, readdirSync } from "node:fs";
import { createServer } from "node:http";
import { dirname, join } from "node:path";
import { fileURLToPath } from "node:url";
import vm from "node:vm";

export const page = dirname(dirname(fileURLToPath(import.meta.url)));
export const top = dirname(page);
export const examples = join(top, "examples");
export const counted = { passed: 0, failed: 0 };

export function check(holds, what) {
  if (holds) counted.passed += 1;
  else {
    counted.failed += 1;
    console.log(`not so: ${what}`);
  }
  return holds;
}

export function same(got, wanted, what) {
  const [left, right] = [JSON.stringify(got), JSON.stringify(wanted)];
  return check(left === right, `${what}\n  wanted ${String(right).slice(0, 600)}\n  got    ${String(left).slice(0, 600)}`);
}

export function finish() {
  console.log(`${counted.passed} passed, ${counted.failed} failed`);
  process.exitCode = counted.failed ? 1 : 0;
}

// The functions of sources of the page, whose last one names them.
export function load(name, exported, ...before) {
  const text = [...before, name].map((it) => readFileSync(join(page, it), "utf8")).join("\n");
  return vm.runInThisContext(`(() => { ${text}\nreturn { ${exported.join(", ")} }; })()`, { filename: name });
}

export function read(...parts) {
  return readFileSync(join(...parts), "utf8");
}

// The names of the examples that are run in rounds.
export function exampleNames() {
  const names = readdirSync(examples).filter((name) => name.endsWith(".json")).map((name) => name.slice(0, -5));
  return names.filter((name) => !existsSync(join(examples, `${name}.mode`)));
}

export function namesIn(folder, ending) {
  return readdirSync(join(examples, folder)).filter((name) => name.endsWith(ending)).map((name) => name.slice(0, -ending.length));
}

export function statusOf(name) {
  const file = join(examples, `${name}.status`);
  return existsSync(file) ? Number(readFileSync(file, "utf8")) : 0;
}

// The program that page/check names, else that of this tree; and by which of its names it answers as a call of the library does.
const program = process.env.PAGE_PROGRAM || join(top, "lwkt");
const names = { lwkt_run_turns: "lwkt_run", lwkt_run_text: "lwkt_run", lwkt_text_json: "lwkt_text", lwkt_check_trace: "lwkt_check", lwkt_show_turns: "lwkt_show", lwkt_explore_orders: "lwkt_explore" };

// Whether bytes are taken for a text, as docs/FORMATS.md says: no JSON, and a sentence declares something.
function isText(script) {
  const text = script.toString("latin1");
  const declares = text.replace(/#.*$/gm, "").split(/[\n;]/).some((it) => /^[\s,:]*(token|message|thread)(?![A-Za-z0-9_])/.test(it));
  if (Buffer.byteLength(script) > 1048576 || !declares) return 0;
  try {
    JSON.parse(text);
    return 0;
  } catch {
    return 1;
  }
}

// The arguments of the program for a call of the library: of a search its two bounds, else words with a blank between each two.
function argumentsOf(name, words) {
  if (name === "lwkt_text_json") return ["--json"];
  if (name === "lwkt_explore_orders") return ["--states", words.split(" ")[0], "--turns", words.split(" ")[1]];
  return words ? words.split(" ") : [];
}

// The name of the program and its arguments. By its older name it shows a run in numbers, and by the newer one in the names of a text.
function wordsOf(name, words) {
  const [, named, ...rest] = argumentsOf(name, words);
  return named === "--names" ? ["show", ...rest] : [names[name], ...argumentsOf(name, words)];
}

// The fault that a refusal names, and its place. What is wrong with a text names none, and is refused as bytes that are no JSON.
function faultIn(said) {
  const found = /(?:^lwkt_\w+: |\()fault (\d+)(?: at (\d+))?\)?$/m.exec(said);
  if (found) return [Number(found[1]), Number(found[2] || 0)];
  return [/^lwkt: .*the order names a processor /m.test(said) ? 30 : /^lwkt: standard input:\d/m.test(said) ? 33 : 0, 0];
}

// What the program answers, as a call of the library would.
export function callProgram(name, script, words = name.startsWith("lwkt_run") ? "turns" : "") {
  if (name === "lwkt_is_text") return { status: isText(Buffer.from(script)), fault: 0, place: 0, text: "" };
  const ran = spawnSync(program, wordsOf(name, words), { input: script, maxBuffer: 1 << 30 });
  const [out, told] = [ran.stdout.toString(), ran.stderr.toString()];
  const isRefused = ran.status === 1 || ran.status === 3, [fault, place] = isRefused ? faultIn(out + told) : [0, 0];
  const isAll = name === "lwkt_run_text" || name === "lwkt_explore_orders";
  return { status: ran.status, fault, place, text: isRefused ? told : isAll ? out + told : out };
}

// A server on this machine that answers the stand-in for the module by the program. A script that holds `trap` traps.
export function serve(answers) {
  const server = createServer((request, response) => {
    const parts = [];
    request.on("data", (part) => parts.push(part));
    request.on("end", () => {
      const [path, words] = request.url.split("?");
      const script = Buffer.concat(parts);
      response.setHeader("Access-Control-Allow-Origin", "*");
      if (script.includes('"trap"')) return response.writeHead(500).end();
      response.end(JSON.stringify(answers(path.split("/").pop(), script, decodeURIComponent(words || ""))));
    });
  });
  return new Promise((resolve) => server.listen(0, "127.0.0.1", () => resolve(server)));
}
