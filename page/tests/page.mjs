// The page in a browser: page.mjs BROWSER PAGE [STANDIN]. With a third word the module's place is taken by the program of this tree.
// With PAGE_TESTS set, a regular expression, only the parts whose names fit it are tried.
import { readFileSync } from "node:fs";
import { createServer } from "node:http";
import { fileURLToPath } from "node:url";
import { deflateRawSync } from "node:zlib";
import { Browser } from "./browser.mjs";
import { openable } from "./standin.mjs";
import { callProgram, check, counted, exampleNames, examples, finish, namesIn, read, same, statusOf, top } from "./tools.mjs";

const [program, made, standin] = process.argv.slice(2);
const { url, close } = await openable(made, Boolean(standin));
const browser = new Browser(program);
const only = new RegExp(process.env.PAGE_TESTS || "");
const settled = "!document.getElementById('look').matches('[aria-busy=true]') && !isDrawing";

const put = (tab, script) => tab.ask(`(() => { const box = document.getElementById('script'); box.value = ${JSON.stringify(script)}; box.dispatchEvent(new Event('input')); })()`);
const click = (tab, id) => tab.ask(`document.getElementById(${JSON.stringify(id)}).click()`);
const text = (tab, id) => tab.ask(`document.getElementById(${JSON.stringify(id)}).textContent`);
const value = (tab, id) => tab.ask(`document.getElementById(${JSON.stringify(id)}).value`);
const settle = (tab, seconds) => tab.until(settled, seconds);

async function run(tab, script) {
  await put(tab, script);
  await click(tab, "run");
  await settle(tab);
}

async function goTo(tab, turn) {
  await tab.ask(`choose(${turn})`);
  await settle(tab);
}

const begun = '{"version":1,"turns":2,"idle":1,"cpus":1,"tokens":[],"messages":[],"threads":[]}';
const threadsShown = `[...document.querySelectorAll('.thread')].map((it) => [it.dataset.thread, it.dataset.kind])`;
const kinds = { exited: "ended", faulted: "faulted", running: "runs" };

// An example: its report, and what is shown after its last turn beside what the report says.
async function tryExample(tab, name) {
  await tab.ask(`(() => { const box = document.getElementById('example'); box.value = ${JSON.stringify(name)}; box.dispatchEvent(new Event('change')); })()`);
  await settle(tab);
  same(await value(tab, "script"), read(examples, `${name}.json`), `${name}: its script is in the editor`);
  if (statusOf(name) === 1) return check((await text(tab, "refusal")).length > 0, `${name}: is refused`);
  const wanted = read(examples, `${name}.out`);
  const report = await text(tab, "report");
  check(`${report}\n`.endsWith(wanted), `${name}: its report\n${report}\nwanted\n${wanted}`);
  await click(tab, "last");
  await settle(tab);
  const threads = wanted.split("\n").filter((line) => line.startsWith("thread ")).map((line) => line.split(" ").slice(1, 3));
  const shown = new Map(await tab.ask(threadsShown));
  const fits = threads.every(([id, state]) => (kinds[state] ? shown.get(id) === kinds[state] : ["waits", "ready"].includes(shown.get(id))));
  check(fits && shown.size === threads.length, `${name}: threads after the last turn, ${JSON.stringify([...shown])}`);
  const marked = await tab.ask(`document.getElementById('drawing').shadowRoot?.querySelectorAll('.chosen').length`);
  const hasTurns = Number(await value(tab, "number")) >= 0;
  check(!hasTurns || marked === 1, `${name}: the chosen turn is marked in the picture`);
}

// A text of the course: its report is that of the same script in JSON, and all that it expects holds.
async function tryCourse(tab, name) {
  await tab.ask(`(() => { const box = document.getElementById('lessons'); box.value = ${JSON.stringify(name)}; box.dispatchEvent(new Event('change')); })()`);
  await settle(tab);
  const script = read(examples, "litmus", `${name}.lwkt`);
  same(await value(tab, "script"), script, `${name}: its text is in the editor`);
  check((await text(tab, "question")).endsWith("?") && (await text(tab, "answered")).length > 0, `${name}: it has a question and an answer`);
  check(await tab.until(`document.getElementById('editor').dataset.form === 'text'`), `${name}: it is read as a text`);
  const wanted = callProgram("lwkt_run_turns", read(examples, "litmus/json", `${name}.json`)).text;
  check(`${await text(tab, "report")}\n`.endsWith(wanted), `${name}: its report`);
  const shown = await tab.ask(`[...document.querySelectorAll('#verdicts li')].map((it) => it.dataset.holds)`);
  const expected = script.split(/[\n;]/).filter((it) => /^\s*(always|sometimes|never|in rounds)\b/.test(it)).length;
  same(shown, Array(expected).fill("true"), `${name}: what it expects holds`);
  const names = [...script.replace(/#.*/g, "").matchAll(/^(?:token|thread) (\w+)/gm)].map(([, it]) => it).sort();
  same(await tab.ask(`[...document.querySelectorAll('.thread .name, [data-token] .name')].map((it) => it.textContent.trim()).sort()`), names, `${name}: names beside the numbers`);
  await click(tab, "last");
  await settle(tab);
}

// A text of threads that decide, with its loops and its `for`: in each turn that asks for a step, the step's sentence is marked.
async function tryDeciding(tab, name) {
  const script = read(examples, "version3", `${name}.lwkt`), { status, text: told } = callProgram("lwkt_run_text", script);
  await run(tab, script);
  if (status === 1) return check((await text(tab, "refusal")).length > 0, `${name}: is refused`);
  const shown = await tab.ask(`[...document.querySelectorAll('#verdicts li')].map((it) => [...it.querySelectorAll('span, button')].map((part) => part.textContent.trim()))`);
  same(shown.map(([words, line]) => `${line.replace("line ", "")}: ${words}`), told.match(/^\d+: (holds|doesn't hold|not decided)$/gm), `${name}: its expectations`);
  const turns = await tab.ask("run.windows.get(0).turns.slice(0, 24).map((it) => [it.number, it.step?.startsWith('step') ? it.ask : ''])");
  for (const [number, step] of turns) {
    await goTo(tab, number);
    const marks = await tab.ask(`[...document.querySelectorAll('#mirror.asked mark')].map((it) => it.textContent)`);
    const fits = step ? marks.length === 1 && marks[0].includes(/^\["(\w+)/.exec(step)[1]) && script.includes(marks[0]) : marks.length === 0;
    if (!fits) check(false, `${name}, turn ${number}: of ${step} ${JSON.stringify(marks)} is marked`);
  }
  check(turns.some(([, step]) => step), `${name}: steps of ${turns.length} turns are marked`);
}

// The lessons of the course in its order, one after another, each with its question or one of its title, the answer behind a click; and
// apart from them the tests.
async function tryLessons(tab) {
  const course = read(top, "docs", "COURSE.md"), names = [...course.matchAll(/^- \[\w+\]\(\.\.\/examples\/\w+\/(\w+)\.lwkt\): /gm)].map(([, it]) => it);
  const valuesOf = (id) => tab.ask(`[...document.getElementById('${id}').options].slice(1).map((it) => it.value)`);
  same([await valuesOf("lessons"), (await valuesOf("example")).sort()], [names, exampleNames().sort()], "lessons and tests");
  await tab.ask(`openExample(${JSON.stringify(names[0])})`);
  const questions = [];
  for (const [number, name] of names.entries()) {
    await settle(tab);
    same([await value(tab, "lessons"), await value(tab, "example"), await tab.ask(`document.getElementById('answer').open`)], [name, "", false], `${name} is shown, without its answer`);
    questions.push(await text(tab, "question"));
    if (number + 1 < names.length) await click(tab, "next");
  }
  const asked = questions.filter((it) => !it.endsWith(": what will it print?"));
  same([...new Set(asked)].length, (course.match(/^\*\*.*\*\*$/gm) || []).length, "each question of the course is asked");
  same(questions[0], "What does second read? Could it read something else in another order?", "the first one");
  same(questions[2], "03 recursion: what will it print?", "a lesson without one");
  check(await tab.ask(`document.getElementById('next').disabled`), "behind the last lesson there is none");
  await tab.ask(`openExample(${JSON.stringify(names[13])})`);
  await put(tab, "token t");
  same([await value(tab, "lessons"), await text(tab, "question") !== ""], ["", true], "an edited lesson keeps its question");
  await click(tab, "next");
  await settle(tab);
  same([await value(tab, "lessons"), await value(tab, "script")], [names[14], read(examples, "litmus", `${names[14]}.lwkt`)], "and the next one follows it");
  await tab.ask(`openExample('crossed_lists')`);
  await settle(tab);
  same([await value(tab, "lessons"), await text(tab, "question"), (await text(tab, "told")).length > 0, await tab.ask(`document.getElementById('answer').hidden`)], ["", "", true, true], "a test has no question");
}

// What is wrong with a text is told, each with its place and a mark; what is typed tells its form.
async function tryTexts(tab) {
  const script = read(examples, "litmus/14_a_sum.lwkt");
  await run(tab, script.replace("get accounts", "get acounts").replace("rel accounts", "rle accounts"));
  same(await tab.ask(`[...document.querySelectorAll('#mirror mark')].map((it) => it.textContent)`), ["acounts", "rle"], "two words are marked");
  check((await text(tab, "refusal")).includes("a token is wanted here (accounts?)"), `and told: ${await text(tab, "refusal")}`);
  await tab.ask(`document.querySelectorAll('#refusal button')[1].click()`);
  same(await tab.ask(`(() => { const it = document.getElementById('script'); return it.value.slice(it.selectionStart, it.selectionEnd); })()`), "rle", "a button leads to the second");
  await run(tab, script.replace("cells from=5", "cells from=6"));
  check((await text(tab, "refusal")).includes("the opening of token accounts"), "an opening that breaks its law");
  await run(tab, `${script}\nnever ended; always ended\n`);
  check((await text(tab, "verdict")).includes("doesn't hold"), `an expectation that doesn't hold: ${await text(tab, "verdict")}`);
  same(await tab.ask(`document.querySelector('#verdicts li[data-holds=false] code').textContent`), "never ended", "it is named");
  const parts = () => tab.ask(`['expected', 'ran'].map((id) => document.getElementById(id).hidden)`);
  same(await parts(), [false, false], "and shown with its run");
  await run(tab, `${script}\nnever ended; always edned\n`);
  same(await parts(), [true, true], "of a text that is refused no verdict stands from before");
  await run(tab, `${script}\n${"always ended\n".repeat(297)}`);
  same(await tab.ask(`[document.querySelectorAll('#verdicts li').length, document.querySelector('#verdicts li:last-child').textContent]`), [201, "and 101 more"], "of many expectations the first are shown");
  await put(tab, "{");
  check(await tab.until(`document.getElementById('form').textContent.includes('JSON')`), "a brace is JSON");
  await put(tab, "token t");
  check(await tab.until(`document.getElementById('form').textContent.includes('text')`), "a declaration is a text");
}

const outcomes = `[...document.querySelectorAll('#outcomes > li')].map((it) => [it.dataset.kind, it.querySelector('.order').textContent])`;
const searched = "document.getElementById('orders').getAttribute('aria-busy') === 'false'";

// Every order: each outcome with its kind and its order, why it is stuck, a bound, and a stop.
async function tryOrders(tab) {
  await put(tab, read(examples, "calls_that_wait_for_each_other.json"));
  await click(tab, "orders-start");
  check(await tab.until(searched), "a search ends");
  same(await tab.ask(outcomes), [["stuck", "0 1 0"]], "one outcome, which is stuck");
  check((await text(tab, "outcomes")).includes("thread 0.0 waits for the reply to message 0"), "and why");
  check((await text(tab, "orders-status")).includes("6 states, ") && (await text(tab, "orders-status")).includes("Every order was tried."), await text(tab, "orders-status"));
  check((await text(tab, "lost")).startsWith("Lost: 6 states, from which no end can be reached; the first is the opening"), await text(tab, "lost"));
  await put(tab, read(examples, "crossed_lists.json"));
  same(await tab.ask(outcomes), [], "an edit clears them");
  await click(tab, "orders-start");
  check(await tab.until(searched), "the next search ends");
  same((await tab.ask(outcomes)).map(([kind]) => kind), ["ended", "ended", "ended"], "three outcomes");
  await put(tab, read(examples, "litmus/14_a_sum.lwkt"));
  await click(tab, "orders-start");
  check(await tab.until(`${searched} && document.querySelectorAll('#outcomes > li').length > 1`), "the orders of a text");
  await tab.ask(`document.getElementById('states').value = 2`);
  await click(tab, "orders-start");
  check(await tab.until(`${searched} && document.getElementById('orders-status').textContent.includes('Not every order')`), "a bound");
  await put(tab, "[");
  await click(tab, "orders-start");
  check(await tab.until(`${searched} && document.getElementById('orders-status').textContent.length > 10`), "a script that is refused");
  await put(tab, read(examples, "dining_philosophers.json"));
  await tab.ask(`document.getElementById('states').value = 1000000`);
  await click(tab, "orders-start");
  check(await tab.until(`document.getElementById('orders-status').textContent.includes('Going on')`, 60), "what was found so far is shown");
  await run(tab, read(examples, "crossed_lists.json").replace('"turns"', ' "turns"'));
  check((await text(tab, "verdict")).includes("lawful"), "an edit and a run break it off");
  await put(tab, read(examples, "dining_philosophers.json"));
  await click(tab, "orders-start");
  await tab.until(`document.getElementById('orders-status').textContent.includes('Going on')`, 60);
  await click(tab, "orders-stop");
  check(await tab.until(`${searched} && document.getElementById('orders-status').textContent.includes('stopped')`), `a stop: ${await text(tab, "orders-status")}`);
  await tab.ask(`document.getElementById('states').value = 64000`);
}

// More than one outcome is a table of what differs, in the script's names, with a replay in each row; what is said of each is then closed.
async function tryDifferences(tab) {
  const shown = () => tab.ask(`[...document.querySelectorAll('#differ tr')].map((row) => [...row.children].map((it) => it.textContent).join('|'))`);
  const each = () => tab.ask(`[document.getElementById('each').hidden, document.getElementById('each').open]`);
  await put(tab, read(examples, "litmus/14_a_sum.lwkt"));
  same([await shown(), (await each())[0]], [[], true], "before a search there is no table");
  await click(tab, "orders-start");
  await tab.until(searched);
  same(await shown(), ["Outcome|log of auditor (3 values)|Turns|", "1|v=2 v=8 v=2 v=8|16|Replay", "2|v=5 v=5 v=2 v=8|16|Replay", "3|v=5 v=5 v=5 v=5|16|Replay"], "what differs between three outcomes");
  check((await text(tab, "differ")).includes("The same in all: accounts gen 1, accounts.from 2,"), `and what doesn't: ${await text(tab, "differ")}`);
  same(await each(), [false, false], "each outcome is behind a click");
  await tab.ask(`document.querySelectorAll('#differ button')[1].click()`);
  check(await tab.until(`run?.order?.length === 16 && ${settled}`) && (await text(tab, "report")).includes("v=5 v=5 v=2 v=8"), "a row's order is replayed");
  await put(tab, read(examples, "litmus/23_calls_that_wait_for_each_other.lwkt"));
  await click(tab, "orders-start");
  await tab.until(searched);
  same([await shown(), await each()], [[], [false, true]], "one outcome has no table");
}

// A click replays the order of an outcome, turn by turn: its turns are those of the order, and after the last one its report stands.
async function tryReplay(tab) {
  const script = read(examples, "crossed_lists.json");
  await put(tab, script);
  await click(tab, "orders-start");
  await tab.until(searched);
  const found = await tab.ask(`[...document.querySelectorAll('#outcomes > li')].map((it) => [it.querySelector('.order').textContent, it.querySelector('pre').textContent])`);
  for (const [number, [order, report]] of found.entries()) {
    await tab.ask(`document.querySelectorAll('#outcomes [data-replay]')[${number}].click()`);
    check(await tab.until(`run?.order?.join(' ') === ${JSON.stringify(order)} && !isDrawing && ${settled}`), `outcome ${number + 1} is replayed`);
    check((await text(tab, "report")).includes(`${report}\nlawful`), `its report: ${await text(tab, "report")}`);
    same(await tab.ask("document.activeElement.id"), await tab.ask("document.getElementById('drawing').hidden ? 'turns' : 'drawing'"), "the picture has the focus, or the list of turns");
    const cpus = order.split(" ").map(Number), wanted = callProgram("lwkt_show_turns", script, `turns --order ${cpus.join("")}`).text.split("\n");
    for (const turn of cpus.keys()) {
      await goTo(tab, turn);
      const shown = await text(tab, "chosen");
      if (!shown.startsWith(`Turn ${turn}, processor ${cpus[turn]}: `)) check(false, `turn ${turn} of the order: ${shown}`);
    }
    check(wanted.length > cpus.length, "the program makes the same turns");
    const threads = report.split("\n").filter((line) => line.startsWith("thread ")).map((line) => line.split(" ").slice(1, 3));
    const seen = new Map(await tab.ask(threadsShown));
    check(threads.every(([id, state]) => (kinds[state] ? seen.get(id) === kinds[state] : ["waits", "ready"].includes(seen.get(id)))), `threads after the order: ${JSON.stringify([...seen])}`);
    const pictured = await tab.ask(`document.getElementById('drawing').hidden ? 'none' : document.getElementById('drawing').shadowRoot.querySelectorAll('.chosen').length`);
    check(pictured === 1 || (pictured === "none" && (await text(tab, "rounds")).includes("no picture")), `the chosen turn is marked, or there is no picture: ${pictured}`);
  }
  await goTo(tab, 0);
  check((await tab.ask(threadsShown)).some(([, kind]) => kind === "begins"), "a processor that the order hasn't named yet has had no turn");
  await tab.key("Home");
  await settle(tab);
  await tab.key("ArrowRight");
  await settle(tab);
  const order = await tab.ask("run.order");
  same(await tab.ask("chosen"), order.indexOf(order[0], 1), "a key leads to the next turn of the same processor");
  await click(tab, "link");
  await tab.until("location.hash.includes('&order=')");
  const other = await browser.open(await tab.ask("location.href"));
  check(await other.until(`run?.order?.join('') === ${JSON.stringify(order.join(""))} && !isDrawing`), "a link carries the order");
  await other.close();
  await tab.ask(`history.replaceState(null, '', location.pathname); document.querySelector('#along button').click()`);
  check(await tab.until(`run && run.order === null && ${settled}`), "and back to the run in rounds");
  await put(tab, read(examples, "explore/abort_before_and_after.lwkt"));
  await click(tab, "orders-start");
  await tab.until(searched);
  const lost = (await text(tab, "lost")).replace(/^.*after order ([0-9 ]+) Replay.*$/, "$1");
  await tab.ask(`document.querySelector('#lost button').click()`);
  check(await tab.until(`run?.order?.join(' ') === ${JSON.stringify(lost)} && ${settled}`), `the way to a lost state: ${lost}`);
  await tab.ask(`replay([])`);
  check(await tab.until(`run?.order?.length === 0 && ${settled}`) && (await tab.ask(`document.getElementById('ran').hidden`)), "an order without a turn");
  await put(tab, read(examples, "tutorial/one_at_a_time.lwkt"));
  await click(tab, "orders-start");
  await tab.until(searched);
  const judged = await tab.ask(`[...document.querySelectorAll('#order-verdicts li')].map((it) => [it.dataset.holds, it.querySelector('code').textContent])`);
  same(judged.map(([holds]) => holds), ["true", "false"], `what it expects of all outcomes: ${JSON.stringify(judged)}`);
  await tab.ask(`[...document.querySelectorAll('#order-verdicts li[data-holds=false] button')].find((it) => it.textContent === 'Replay').click()`);
  check(await tab.until(`run?.order && ${settled}`), "the order that decides it is replayed");
  check(/cells 7\s[^]*cells 10\s/.test(await text(tab, "report")), "and its report says why");
}

// Records of tokens, as text where they are printable, else as digits; in rows, in logs and in what a turn did.
async function tryRecords(tab) {
  const row = () => tab.ask(`document.querySelector('[data-token="0"] .record').textContent`);
  await run(tab, read(examples, "record_under_len.json"));
  const wanted = ["'abc'", "'abc'", "'hello'", "'abc'", "'abc'", "'hello'", "'hello'", "'hello'"];
  for (const [turn, it] of wanted.entries()) {
    await goTo(tab, turn);
    same(await row(), `record ${it}`, `the record after turn ${turn}`);
  }
  await click(tab, "last");
  await settle(tab);
  check((await tab.ask(`document.querySelector('[data-thread="0.0"]').innerText`)).includes("b='abc'"), "a record in a log");
  await run(tab, read(examples, "record_under_len.json").replaceAll("68656c6c6f", "00ff22267f"));
  await goTo(tab, 2);
  same(await row(), "record 00ff22267f", "a record that isn't printable");
  check((await text(tab, "chosen")).includes("record 00ff22267f stored"), "and as its turn tells it");
  const mail = "if a; token 0: b";
  await run(tab, read(examples, "record_under_len.json").replaceAll("68656c6c6f", Buffer.from(mail).toString("hex")));
  await goTo(tab, 2);
  same(await row(), `record '${mail}'`, "a record with a semicolon");
  await run(tab, read(examples, "crossed_lists.json"));
  same(await tab.ask(`document.querySelectorAll('.record').length`), 0, "tokens without records");
}

// An urgent note is told apart by a word and a frame, and ordinary ones have none.
async function tryUrgent(tab) {
  await run(tab, read(examples, "urgent_request_first.json"));
  const signs = () => tab.ask(`[...document.querySelectorAll('#lanes .urgent, #messages .urgent')].map((it) => it.textContent)`);
  await goTo(tab, 0);
  same(await signs(), [], "no note is urgent after turn 0");
  await goTo(tab, 4);
  same(await signs(), ["urgent", "urgent"], "one note and its message are urgent after turn 4");
  check((await text(tab, "lanes")).includes("0 → 1message 0, round 1; urgent message 1, round 1; message 2, round 1"), `in its lane: ${await text(tab, "lanes")}`);
  await goTo(tab, 15);
  check((await text(tab, "lanes")).includes("urgent reply to message 1"), "its reply is urgent too");
  await goTo(tab, 16);
  same(await signs(), [], "and no more once it is at rest");
  const frame = await tab.ask(`(() => { choose(4); return new Promise((done) => setTimeout(() => { const it = getComputedStyle(document.querySelector('#lanes .urgent')); done([it.borderStyle, Number(it.fontWeight) >= 600]); }, 500)); })()`);
  same(frame, ["solid", true], "by more than colour");
}

// From a web server the page runs as from disk, and asks it for nothing but itself.
async function tryServed() {
  const server = createServer((request, response) => response.setHeader("Content-Type", "text/html").end(readFileSync(fileURLToPath(url))));
  await new Promise((resolve) => server.listen(0, "127.0.0.1", resolve));
  const address = `http://127.0.0.1:${server.address().port}/lwkt/`;
  const tab = await browser.open(address);
  check(await tab.until(`run && !isDrawing && document.querySelectorAll('.thread').length === 2`), "the page runs from a web server");
  same(tab.requests.filter((it) => it !== address && !/^(blob|data):/.test(it) && !(standin && it.includes("/call/"))), [], "and asks for nothing else");
  await tab.close();
  server.close();
}

// From the opening of the file to the first run on the page.
async function tryFirst() {
  const times = [], all = [];
  for (let i = 0; i < 5; i += 1) {
    const tab = await browser.open(url);
    await tab.until(`performance.getEntriesByName('shown').length > 0`);
    const [ran, shown] = await tab.ask(`['ran', 'shown'].map((it) => performance.getEntriesByName(it)[0].startTime)`);
    times.push(ran);
    all.push(shown);
    await tab.close();
  }
  for (const it of [times, all]) it.sort((a, b) => a - b);
  check(times[0] < 500, `the first run is told in half a second: ${times.map((it) => it.toFixed(0))}`);
  console.log(`the first run is told ${times[2].toFixed(0)} ms after the file was opened (${times[0].toFixed(0)} to ${times[4].toFixed(0)}), and shown whole after ${all[2].toFixed(0)}`);
}

// Forward through all turns and back again: the same is shown at the same turn.
async function tryWalk(tab, name) {
  await run(tab, read(examples, `${name}.json`));
  const look = "document.getElementById('state').innerText + document.getElementById('chosen').innerText";
  const total = (await tab.ask("run.total"));
  const seen = [];
  for (let turn = 0; turn < total; turn += 1) {
    await goTo(tab, turn);
    seen.push(await tab.ask(look));
  }
  for (let turn = total - 1; turn >= 0; turn -= 1) {
    await goTo(tab, turn);
    if ((await tab.ask(look)) !== seen[turn]) return check(false, `${name}: turn ${turn} is shown as it was`);
  }
  check(new Set(seen).size === total, `${name}: each of ${total} turns is shown in its own way, forward and back`);
}

// What stands beside a turn, against what a reader of docs/SHOW.md's example finds in its lines.
async function tryStates(tab) {
  await run(tab, read(examples, "crossed_lists.json"));
  const row = (number) => tab.ask(`document.querySelector('[data-token="${number}"]').innerText.replace(/\\s+/g, " ")`);
  const thread = (id) => tab.ask(`document.querySelector('[data-thread="${id}"]').innerText.replace(/\\s+/g, " ")`);
  await goTo(tab, 0);
  check((await thread("1.0")).includes("has had no turn"), "before its first turn a thread has had none");
  check((await thread("0.0")).includes("running"), "turn 0 runs 0.0");
  check((await row(0)).startsWith("0 1 generation 0, count 0 held exclusively by 0.0 off 0 law any 0 0"), `token 0 after turn 0: ${await row(0)}`);
  check((await row(1)).includes("free"), "token 1 is free after turn 0");
  await goTo(tab, 2);
  check((await row(1)).includes("set: wanted exclusively"), `turn 2 marks token 1: ${await row(1)}`);
  check((await row(1)).includes("held exclusively by 1.0"), "which 1.0 holds");
  await goTo(tab, 6);
  check((await thread("0.0")).includes("waits for token 0"), `0.0 waits for token 0 in turn 6: ${await thread("0.0")}`);
  check((await row(0)).includes(" 7 law any"), "and its cell is 7");
  check((await tab.ask(`document.querySelectorAll('tr.changed').length`)) === 0, "turn 6 changes no token");
  await goTo(tab, 7);
  check((await tab.ask(`[...document.querySelectorAll('tr.changed')].map((it) => it.dataset.token).join()`)) === "0", "turn 7 changes token 0");
  check((await row(0)).includes("262144"), "to the word 262144");
}

async function tryMessages(tab) {
  await run(tab, read(examples, "server_waits_without_its_token.json"));
  const row = () => tab.ask(`document.querySelector('[data-message="0"]').innerText.replace(/\\s+/g, " ")`);
  const lanes = () => tab.ask(`document.getElementById('lanes').innerText.replace(/\\s+/g, " ")`);
  await goTo(tab, 8);
  check((await row()).includes("at rest with 1"), `message 0 is at rest: ${await row()}`);
  check((await lanes()).includes("Nothing is on its way"), "no lane has a note");
  await goTo(tab, 9);
  check((await row()).includes("out to 0") && (await lanes()).includes("1 → 0 message 0, round 1"), `message 0 is on its way to 0: ${await lanes()}`);
  await goTo(tab, 10);
  check((await row()).includes("with 0") && (await lanes()).includes("Nothing"), "then it is with 0");
  await goTo(tab, 12);
  check((await row()).includes("back to 1") && (await lanes()).includes("0 → 1 reply to message 0"), `and its reply is on its way to 1: ${await lanes()}`);
  await goTo(tab, 13);
  check((await row()).includes("at rest with 1"), "and then at rest");
}

async function tryWhy(tab) {
  await run(tab, read(examples, "calls_that_wait_for_each_other.json"));
  await click(tab, "last");
  await settle(tab);
  const buttons = await tab.ask(`[...document.querySelectorAll('[data-why]')].map((it) => it.dataset.why)`);
  same(buttons.length, 2, "both threads can be asked why they wait");
  await tab.ask(`document.querySelector('[data-why]').click()`);
  const why = await tab.ask(`document.querySelector('.why').innerText`);
  check(why.includes("waits for the reply to message") && why.includes("comes back to"), `they wait for each other: ${why}`);
  await run(tab, read(examples, "dining_philosophers.json"));
  await goTo(tab, 12);
  const asked = await tab.ask(`[...document.querySelectorAll('[data-why]')].length`);
  check(asked > 0, "philosophers wait");
  await tab.ask(`document.querySelector('[data-why]').click()`);
  check((await tab.ask(`document.querySelector('.why').innerText`)).includes("held exclusively by"), "for a token that another holds");
  check((await tab.ask(`document.querySelector('[data-why]').getAttribute('aria-expanded')`)) === "true", "the button says that it is open");
  await goTo(tab, 13);
  check((await tab.ask(`document.querySelectorAll('.why').length`)) >= 0, "a step with an answer open");
  await tab.ask(`document.querySelector('[data-why][aria-expanded=true]')?.click()`);
}

// Each refused script is told in words, with the place, and its bad part is marked in the editor.
async function tryRefusal(tab, name) {
  const script = read(examples, "refused", `${name}.json`);
  await run(tab, script);
  const [said, isMarked] = await tab.ask(`[document.getElementById('refusal').innerText, [...document.querySelectorAll('#mirror mark')].map((it) => it.textContent)]`);
  const place = /^lwkt: standard input:(\d+):(\d+): (.*) \(fault .*\)$/m.exec(read(examples, "refused", `${name}.err`));
  check(said.includes(`Line ${place[1]}, column ${place[2]}`) && said.includes(place[3].slice(0, 30)), `${name}: ${said}`);
  same(isMarked.length, 1, `${name}: a part is marked`);
}

async function tryEditor(tab) {
  const script = read(examples, "crossed_lists.json").replace('["write",0,0,7]', '["write",0,7]');
  await run(tab, script);
  same(await tab.ask(`document.querySelector('#mirror mark').textContent`), '["write",0,7]', "the bad step is marked");
  const under = await tab.ask(`(() => { const mark = document.querySelector('#mirror mark').getBoundingClientRect(), said = document.getElementById('bubble').getBoundingClientRect(); return said.top - mark.bottom; })()`);
  check(under >= 0 && under < 12, `what is bad stands under it, ${under} pixels`);
  same(await tab.ask(`document.getElementById('script').getAttribute('aria-invalid')`), "true", "the editor says that it is invalid");
  same(await tab.ask(`(() => { const a = document.getElementById('script'), b = document.getElementById('mirror'); return [a.clientWidth - b.clientWidth, a.scrollHeight - b.scrollHeight]; })()`), [0, 0], "mark and text are laid out alike");
  await tab.ask(`document.querySelector('#refusal button').click()`);
  same(await tab.ask(`(() => { const it = document.getElementById('script'); return it.value.slice(it.selectionStart, it.selectionEnd); })()`), '["write",0,7]', "the button leads to it");
  await put(tab, script);
  check(await tab.ask(`document.getElementById('bubble').hidden && !document.getElementById('refusal').textContent`), "an edit clears it");
}

// Each line of the editor has its number, at the height of its first row, also where lines are broken; a long script has none.
async function tryLines(tab) {
  const script = `${read(examples, "litmus/14_a_sum.lwkt")}\n${"# ab ".repeat(100)}\n\n${"a".repeat(1000)}\nlast`;
  await put(tab, script);
  const numbers = await tab.ask(`document.querySelectorAll('#lines > div').length`);
  same(numbers, script.split("\n").length, "each line has a number");
  const alike = `(() => { const [a, b] = ['script', 'lines'].map((id) => document.getElementById(id)); a.scrollTop = 1e6; followScroll(); return [a.clientWidth - b.clientWidth, a.scrollHeight - b.scrollHeight, a.scrollTop - b.scrollTop, a.scrollTop > 0]; })()`;
  same(await tab.ask(alike), [0, 0, 0, true], "numbers and text are laid out alike");
  const [first, second] = [/^thread clerk.*/m, /^thread auditor.*/m].map((it) => script.slice(0, script.search(it)).split("\n").length - 1);
  const offset = await tab.ask(`(() => { putMarks(document.getElementById('script').value, [['thread clerk'], ['thread auditor']].map(([it]) => ({ from: document.getElementById('script').value.indexOf(it), to: document.getElementById('script').value.indexOf(it) + 5 })), 'asked'); followScroll(); const lines = document.querySelectorAll('#lines > div'); return [...document.querySelectorAll('#mirror mark')].map((mark, i) => Math.abs(mark.getBoundingClientRect().top - lines[[${first}, ${second}][i]].getBoundingClientRect().top) < 6); })()`);
  same(offset, [true, true], "a number stands beside its line");
  await put(tab, "#".padEnd(100001));
  same(await tab.ask(`document.querySelectorAll('#lines > div').length`), 0, "a long script has no numbers");
  await tab.ask(`openExample("01_one_at_a_time")`);
  await settle(tab);
  same(await tab.ask(`document.querySelectorAll('#lines > div').length`), read(examples, "litmus/01_one_at_a_time.lwkt").split("\n").length, "those of an example");
}

// What stands of a run is marked as old from an edit to the next run, or until the edit is taken back; of a refusal nothing stands.
async function tryOld(tab) {
  const script = read(examples, "litmus/14_a_sum.lwkt"), shown = () => tab.ask(`['old', 'ran', 'expected'].map((id) => document.getElementById(id).checkVisibility())`);
  await run(tab, script);
  same(await shown(), [false, true, true], "a run isn't old");
  await put(tab, `${script} `);
  same(await shown(), [true, true, true], "after an edit it is");
  check((await text(tab, "old")).startsWith("Not run yet"), "which is said");
  await put(tab, script);
  same(await shown(), [false, true, true], "and no more when the edit is taken back");
  await run(tab, script.replace("get accounts", "get acounts"));
  same([await shown(), await tab.ask(`document.querySelectorAll('#verdicts li, #order-verdicts li, #outcomes li').length`)], [[false, false, false], 0], "no verdict stands above a refusal");
  check((await text(tab, "verdict")).startsWith("The script was refused"), "which is said");
  await put(tab, script);
  same([await shown(), await text(tab, "verdict")], [[false, false, false], "Not run yet."], "nor a refusal above another script");
  await click(tab, "run");
  await settle(tab);
  same(await shown(), [false, true, true], "the next run is shown");
  await put(tab, `${script}\ntoken accounts`);
  await tab.ask(`start(); document.getElementById('script').value = ${JSON.stringify(script)}; noteEdit()`);
  await settle(tab);
  same([await text(tab, "verdict"), await tab.ask(`document.querySelectorAll('#mirror mark').length`)], ["Not run yet.", 0], "a refusal that comes after an edit isn't shown");
}

// The step that the chosen turn's thread asks for is marked in the editor, in JSON and in texts, and brought into view.
async function tryAsked(tab) {
  const marks = () => tab.ask(`[...document.querySelectorAll('#mirror.asked mark')].map((it) => it.textContent)`);
  const isSeen = () => tab.ask(`(() => { const mark = document.querySelector('#mirror mark').getBoundingClientRect(), box = document.getElementById('editor').getBoundingClientRect(); return mark.top >= box.top && mark.bottom <= box.bottom && !document.getElementById('bubble').checkVisibility(); })()`);
  const crossed = read(examples, "crossed_lists.json");
  await tab.ask(`document.activeElement.blur()`);
  await run(tab, crossed);
  await goTo(tab, 2);
  same([await marks(), await isSeen()], [['["get",1]'], true], "a step in JSON");
  await goTo(tab, 4);
  same(await marks(), [], "a turn that runs no thread");
  await goTo(tab, 2);
  await put(tab, `${crossed} `);
  same(await marks(), [], "an edit takes the mark away");
  await goTo(tab, 0);
  same(await marks(), [], "and none comes back");
  const script = read(examples, "version3/second_way.lwkt");
  await run(tab, `${script}${"# a\n".repeat(100)}${script.replaceAll(/^(token|always|sometimes).*/gm, "").replace("chooser", "other").replace("holder", "one")}`);
  const turns = await tab.ask("run.windows.get(0).turns.filter((it) => it.step?.startsWith('step')).map((it) => [it.number, it.thread])");
  for (const [thread, isFar] of [["0.0", false], ["0.1", true]]) {
    const seen = [];
    for (const [number] of turns.filter((it) => it[1] === thread)) {
      await goTo(tab, number);
      seen.push(...(await marks()), await isSeen(), (await tab.ask(`document.getElementById('script').scrollTop`)) > 1000);
    }
    same(seen, ["got = try near", "write near.n 1", "rel near"].flatMap((it) => [it, true, isFar]), `the steps of ${thread} in a text, in view`);
  }
  same(await tab.ask(`(() => { const a = document.getElementById('script'), b = document.getElementById('mirror'); return [a.clientWidth - b.clientWidth, a.scrollHeight - b.scrollHeight, a.scrollTop - b.scrollTop]; })()`), [0, 0, 0], "mark and text are laid out alike");
  await tab.ask(`(() => { const box = document.getElementById('script'); box.focus(); box.scrollTop = 0; })()`);
  await goTo(tab, turns.at(-1)[0]);
  same([(await marks()).length, await tab.ask(`document.getElementById('script').scrollTop`)], [1, 0], "whoever writes isn't led away");
  await tab.ask(`document.activeElement.blur()`);
  for (const [length, count] of [[100000, 1], [100001, 0]]) {
    await run(tab, crossed.padEnd(length));
    same((await marks()).length, count, `marks in a script of ${length} characters`);
  }
}

async function tryKeys(tab) {
  await put(tab, read(examples, "crossed_lists.json"));
  await tab.ask(`document.getElementById('script').focus()`);
  await tab.key("Enter", { ctrl: true });
  await settle(tab);
  check((await text(tab, "verdict")).includes("lawful"), "Ctrl+Enter runs");
  await tab.key("Tab");
  check(await tab.ask(`document.activeElement.id !== 'script'`), "Tab leaves the editor");
  await tab.ask(`document.getElementById('turns').focus()`);
  const moves = [["ArrowDown", 1], ["ArrowDown", 2], ["ArrowUp", 1], ["ArrowRight", 3], ["ArrowLeft", 1], ["End", 25], ["Home", 0], ["PageDown", null], ["Home", 0], ["ArrowUp", 0]];
  for (const [key, wanted] of moves) {
    await tab.key(key);
    await settle(tab);
    if (wanted !== null) same(await tab.ask("chosen"), wanted, `${key} leads to turn ${wanted}`);
  }
  check(await tab.ask(`Boolean(document.getElementById(document.getElementById('turns').getAttribute('aria-activedescendant')))`), "the active row is there");
  await tab.ask(`(() => { const it = document.getElementById('number'); it.value = 17; it.dispatchEvent(new Event('change')); })()`);
  await settle(tab);
  same(await tab.ask("chosen"), 17, "a number leads to its turn");
  await tab.ask(`document.querySelector('.turn[data-turn="19"]').click()`);
  await settle(tab);
  same(await tab.ask("chosen"), 19, "a click on a row leads there");
  await tab.ask(`document.getElementById('drawing').shadowRoot.querySelector('g[data-turn="4"] rect').dispatchEvent(new MouseEvent('click', { bubbles: true, composed: true }))`);
  await settle(tab);
  same(await tab.ask("chosen"), 4, "a click in the picture leads there");
}

// Play goes on by itself up to the last turn, and from there to the first; it can be paused, and an edit ends it.
async function tryPlay(tab) {
  await run(tab, read(examples, "litmus/01_one_at_a_time.lwkt"));
  await tab.ask(`document.getElementById('speed').value = '10'`);
  await goTo(tab, 10);
  await click(tab, "play");
  same(await text(tab, "play"), "Pause", "it plays");
  check(await tab.until("chosen === 15 && !playing"), "up to the last turn");
  same(await text(tab, "play"), "Play", "and ends there");
  await click(tab, "play");
  check(await tab.until("playing && chosen > 1 && chosen < 15"), "again, from the first turn");
  await tab.ask(`document.getElementById('turns').focus()`);
  await tab.key(" ");
  await settle(tab);
  const paused = await tab.ask("chosen");
  await new Promise((resolve) => setTimeout(resolve, 300));
  same(await tab.ask("[chosen, playing]"), [paused, 0], "a blank pauses it");
  same(await tab.ask(`document.getElementById('drawing').shadowRoot.querySelectorAll('.later').length`), 15 - paused, "what comes later is pale");
  await tab.key(" ");
  await put(tab, "");
  same(await tab.ask("playing"), 0, "an edit ends it");
  await tab.ask(`document.getElementById('speed').value = '1'`);
}

// The page opens with a lesson as a text, and with its picture in view, large enough to be read; on a phone too.
async function tryOpening() {
  for (const [width, height] of [[1366, 768], [390, 844]]) {
    const tab = await browser.open(url, { width, height });
    await tab.until(`run && ${settled} && document.querySelector('#drawing').shadowRoot?.querySelector('.chosen')`);
    same(await value(tab, "script"), read(examples, "litmus/01_one_at_a_time.lwkt"), "the page opens with a lesson");
    const [top, bottom, size] = await tab.ask(`(() => { const box = document.getElementById('drawing').getBoundingClientRect(), svg = document.getElementById('drawing').shadowRoot.querySelector('svg'); return [box.top, box.bottom, 12 * svg.getBoundingClientRect().width / svg.viewBox.baseVal.width]; })()`);
    check(top > 0 && bottom < height && size >= 12, `its picture is in view at ${width} pixels, from ${top} to ${bottom}, with letters of ${size}`);
    await tab.close();
  }
}

// From the top with Tab alone: each thing that can be used is reached, shows that it has the focus, and nothing keeps it.
async function tryTabbing(tab) {
  await run(tab, read(examples, "crossed_lists.json"));
  await tab.ask(`document.activeElement.blur(); window.scrollTo(0, 0)`);
  const reached = new Set();
  for (let i = 0; i < 60; i += 1) {
    await tab.key("Tab");
    const id = await tab.ask(`document.activeElement === document.body ? '' : document.activeElement.id || document.activeElement.closest('details')?.id || document.activeElement.textContent.slice(0, 20)`);
    if (id) reached.add(id);
  }
  for (const id of ["theme", "lessons", "next", "answer", "example", "script", "run", "link", "first", "back", "play", "forth", "last", "speed", "number", "turns", "drawing", "report"]) check(reached.has(id), `Tab reaches ${id}`);
  const lines = await tab.ask(`(() => { document.getElementById('turns').focus(); return getComputedStyle(document.getElementById('turns')).outlineStyle; })()`);
  check(lines !== "none", "the focus is seen");
}

async function tryLink(tab) {
  const script = read(examples, "server_of_three.json");
  await run(tab, script);
  await goTo(tab, 9);
  await click(tab, "link");
  await tab.until("location.hash.length > 10");
  const address = await tab.ask("location.href");
  const other = await browser.open(address);
  await other.until(`run && chosen === 9 && !isDrawing`);
  same(await value(other, "script"), script, "a link carries the script");
  same(await other.ask("chosen"), 9, "and the turn");
  await other.ask(`location.hash = '#z=AAAA'`);
  check(await other.until(`document.getElementById('status').textContent.includes("can't be read")`), "a spoiled link is told");
  same(await value(other, "script"), script, "and the script stays");
  for (const [bytes, words] of [[1000000, "more than 3000 lines"], [30000000, "more than 1048576 bytes"]]) {
    const since = Date.now();
    await other.ask(`location.hash = '#z=${deflateRawSync(Buffer.alloc(bytes, "\n")).toString("base64url")}'`);
    check(await other.until(`document.getElementById('status').textContent.includes(${JSON.stringify(words)})`), `a link of ${bytes} line feeds is told: ${await text(other, "status")}`);
    check(Date.now() - since < 5000, `within seconds: ${Date.now() - since} ms`);
    same(await value(other, "script"), script, "and the script stays");
    await other.ask(`location.hash = ''`);
  }
  await other.ask(`location.hash = '#p=${Buffer.from(begun).toString("base64url")}&order=${"0".repeat(100001)}'`);
  check(await other.until(`document.getElementById('status').textContent.includes("too long")`), "a link with too long an order is told");
  await other.ask(`location.hash = ${JSON.stringify(`#p=${Buffer.from(begun).toString("base64url")}`)}`);
  check(await other.until(`document.getElementById('script').value === ${JSON.stringify(begun)}`), "a link that isn't packed");
  await other.close();
}

// A link that isn't shown, as the first address: the page says so beside its first example.
async function tryFirstLink() {
  const tab = await browser.open(`${url}#z=AAAA`);
  check(await tab.until(`run && ${settled} && document.getElementById('status').textContent.includes("can't be read")`), "a spoiled link is told when the page opens");
  await tab.close();
}

// A text that is too long isn't put in; many lines are put in at once.
async function tryPaste(tab) {
  await browser.send("Browser.grantPermissions", { permissions: ["clipboardReadWrite", "clipboardSanitizedWrite"] });
  const paste = async (made) => {
    await tab.ask(`(() => { const box = document.getElementById('script'); box.focus(); box.select(); return navigator.clipboard.writeText(${made}); })()`);
    const since = Date.now();
    for (const type of ["keyDown", "keyUp"]) await tab.send("Input.dispatchKeyEvent", { type, key: "v", code: "KeyV", windowsVirtualKeyCode: 86, modifiers: 2, commands: type === "keyDown" ? ["paste"] : [] });
    const length = await tab.ask(`document.getElementById('script').value.length`);
    return [length, Date.now() - since < 20000, (await text(tab, "status")).replace(/, the most.*/, "")];
  };
  await put(tab, begun);
  same(await paste(`'a\\n'.repeat(500000)`), [begun.length, true, "Nothing was put in: the text would have more than 3000 lines"], "a million bytes in short lines");
  same(await paste(`'a'.repeat(1048577)`), [begun.length, true, "Nothing was put in: the text would have more than 1048576 bytes"], "a byte too many");
  same(await paste(`'# a\\n'.repeat(2500)`), [10000, true, ""], "2500 lines");
  same(await paste(`'turns 5'`), [7, true, ""], "a word in their place");
}

// The contrast of each text with what it stands on, at least 4.5 to 1.
const contrast = `(() => {
  const canvas = document.createElement('canvas').getContext('2d', { willReadFrequently: true });
  const rgba = (color) => { canvas.clearRect(0, 0, 1, 1); canvas.fillStyle = color; canvas.fillRect(0, 0, 1, 1); return [...canvas.getImageData(0, 0, 1, 1).data]; };
  const light = ([r, g, b]) => [r, g, b].map((it) => it / 255).map((it) => (it <= 0.04045 ? it / 12.92 : ((it + 0.055) / 1.055) ** 2.4)).reduce((sum, it, i) => sum + it * [0.2126, 0.7152, 0.0722][i], 0);
  const ground = (it) => { for (; it; it = it.parentElement) { const color = rgba(getComputedStyle(it).backgroundColor); if (color[3] === 255) return color; } return [255, 255, 255]; };
  const low = [];
  const walk = document.createTreeWalker(document.body, NodeFilter.SHOW_TEXT);
  while (walk.nextNode()) {
    const it = walk.currentNode.parentElement;
    if (!walk.currentNode.textContent.trim() || !it.checkVisibility() || it.closest('script, style, #mirror, #lines, option')) continue;
    const [a, b] = [light(rgba(getComputedStyle(it).color)), light(ground(it))];
    const ratio = (Math.max(a, b) + 0.05) / (Math.min(a, b) + 0.05);
    if (ratio < 4.5) low.push([ratio.toFixed(2), it.tagName, it.className, it.textContent.slice(0, 30)]);
  }
  return low;
})()`;

async function tryContrast(dark) {
  const tab = await browser.open(url, { dark });
  await settle(tab);
  const name = dark ? "dark" : "light";
  same(await tab.ask("document.documentElement.dataset.theme"), name, `${name} as the system asks`);
  for (const example of ["dining_philosophers", "law_broken_at_yield", "server_of_three"]) {
    await run(tab, read(examples, `${example}.json`));
    await goTo(tab, 12);
    await tab.ask(`document.querySelectorAll('[data-why][aria-expanded=false]').forEach((it) => it.click()); document.querySelectorAll('details').forEach((it) => { it.open = true; })`);
    same(await tab.ask(contrast), [], `${name}: contrast of ${example}`);
  }
  await run(tab, read(examples, "refused", `${namesIn("refused", ".json")[0]}.json`));
  same(await tab.ask(contrast), [], `${name}: contrast of a refusal`);
  await run(tab, `${read(examples, "litmus/23_calls_that_wait_for_each_other.lwkt")}\nalways ended\n`);
  await click(tab, "orders-start");
  await tab.until(searched);
  same(await tab.ask(contrast), [], `${name}: contrast of expectations and outcomes`);
  await click(tab, "theme");
  same(await tab.ask("document.documentElement.dataset.theme"), dark ? "light" : "dark", "the button changes the theme");
  await tab.close();
}

// At the width of a phone nothing is wider than the page.
async function tryWidths() {
  for (const width of [320, 390, 768, 1280, 1920]) {
    const tab = await browser.open(url, { width, height: 800 });
    await settle(tab);
    for (const example of ["dining_philosophers", "eight_processors", "message_refusals"]) {
      await run(tab, read(examples, `${example}.json`));
      await goTo(tab, 10);
      await tab.ask(`document.querySelectorAll('details').forEach((it) => { it.open = true; }); document.querySelectorAll('[data-why][aria-expanded=false]').forEach((it) => it.click())`);
      const wide = await tab.ask(`[...document.querySelectorAll('body *')].filter((it) => it.checkVisibility() && it.getBoundingClientRect().right > innerWidth + 1 && !it.closest('.wide, #drawing, #turns, pre, .prose')).map((it) => it.id || it.className || it.tagName)`);
      same([await tab.ask(`document.documentElement.scrollWidth <= innerWidth`), wide], [true, []], `${example} at ${width} pixels`);
    }
    const small = await tab.ask(`[...document.querySelectorAll('button')].filter((it) => it.checkVisibility() && it.getBoundingClientRect().height < 24).map((it) => it.textContent)`);
    same(small, [], `buttons are 24 pixels high at ${width}`);
    await tab.close();
  }
}

// What a reader of the screen is told.
async function tryNames(tab) {
  await run(tab, read(examples, "dining_philosophers.json"));
  await goTo(tab, 12);
  const nameless = await tab.ask(`[...document.querySelectorAll('button, input, select, textarea, [role=listbox], [role=group]')].filter((it) => !(it.getAttribute('aria-label') || it.textContent.trim() || (it.labels && it.labels.length))).map((it) => it.id || it.outerHTML)`);
  same(nameless, [], "each control has a name");
  const twice = await tab.ask(`(() => { const ids = [...document.querySelectorAll('[id]')].map((it) => it.id); return ids.filter((id, i) => ids.indexOf(id) !== i); })()`);
  same(twice, [], "each id stands once");
  const levels = await tab.ask(`[...document.querySelectorAll('h1, h2, h3, h4')].map((it) => Number(it.tagName[1]))`);
  check(levels[0] === 1 && levels.every((level, i) => i === 0 || level <= levels[i - 1] + 1), `headings go down one by one: ${levels}`);
  for (const role of ["main", "header", "footer", "h1"]) same(await tab.ask(`document.querySelectorAll('${role}').length`), 1, `one ${role}`);
  same(await tab.ask("document.documentElement.lang"), "en", "the language is named");
  const trust = "the LLVM module of the proved code, compiled for another target by means outside the kit, compared on all examples; the proof is of the x86-64 program.";
  check((await text(tab, "trust")).includes(trust), "what may be trusted is said");
}

async function tryParts(tab) {
  await run(tab, read(examples, "crossed_lists.json"));
  await tab.ask(`document.querySelectorAll('details').forEach((it) => { it.open = true; })`);
  check(await tab.until(`document.getElementById('chains').textContent.includes('closing: generation 2, row 8')`), "what was written to each token");
  check(await tab.until(`document.getElementById('trace').value.startsWith('{"version":1,"cpus":2')`), "the trace");
  await click(tab, "judge");
  check(await tab.until(`document.getElementById('judged').textContent === 'lawful'`), "its check");
  await tab.ask(`document.getElementById('trace').value = document.getElementById('trace').value.replace('["take",1,0]', '["take",1,1]')`);
  await click(tab, "judge");
  check(await tab.until(`document.getElementById('judged').textContent.startsWith('unlawful')`), "a spoiled one");
  await tab.ask(`document.getElementById('trace').value = '{'`);
  await click(tab, "judge");
  check(await tab.until(`/line 1|refused|fault/.test(document.getElementById('judged').textContent)`), "one that isn't a trace");
  await tab.ask(`document.getElementById('trace').dispatchEvent(new Event('input'))`);
  same(await text(tab, "judged"), "", "an edit takes the finding away");
}

const long = (turns, steps) => JSON.stringify({ version: 1, turns, idle: 1, cpus: 2, tokens: [{ cells: [0], law: "tally", param: 0, gen: 0 }], messages: [], threads: [{ cpu: 0, repeat: 1000000, steps }, { cpu: 1, repeat: 1000000, steps }] });
const section = [["get", 0], ["add", 0, 1], ["rel", 0]];

// A million turns: the page answers all the while, and each turn can be gone to.
async function tryLong(tab) {
  await browser.noteTasks();
  await put(tab, long(500000, section));
  await tab.ask(`(() => { window.gaps = []; let last = performance.now(); window.watching = true; const frame = (now) => { window.gaps.push(now - last); last = now; if (window.watching) requestAnimationFrame(frame); }; requestAnimationFrame(frame); window.tasks = []; new PerformanceObserver((list) => window.tasks.push(...list.getEntries().map((it) => it.duration))).observe({ type: 'longtask' }); })()`);
  await click(tab, "run");
  await tab.ask(`document.querySelectorAll('details').forEach((it) => { it.open = true; })`);
  check(await tab.until(`run && run.total === 1000000 && !isDrawing && document.getElementById('look').getAttribute('aria-busy') === 'false'`, 60), `a million turns: ${await text(tab, "verdict")} ${await text(tab, "status")}`);
  for (const turn of [999999, 500000, 123456, 9999, 10000, 10001]) {
    await goTo(tab, turn);
    check(await tab.until(`chosen === ${turn} && document.getElementById('state-head').textContent === 'After turn ${turn}' && !isDrawing`, 60), `turn ${turn} of a million`);
    check((await text(tab, "chosen")).startsWith(`Turn ${turn}, round ${Math.floor(turn / 2)}`), `its line: ${(await text(tab, "chosen")).slice(0, 60)}`);
    check((await tab.ask(`document.querySelectorAll('.thread').length`)) === 2, "and its threads");
  }
  check(await tab.until(`document.getElementById('trace-note').textContent.includes('can be saved')`, 60), "its trace is too long to be shown");
  await click(tab, "judge");
  check(await tab.until(`document.getElementById('judged').textContent === 'lawful'`, 60), `but it can be checked: ${await text(tab, "judged")}`);
  const [longest, frames, task] = await tab.ask(`window.watching = false, [Math.max(...window.gaps), window.gaps.length, Math.max(0, ...window.tasks)]`);
  const tasks = await browser.tasksOf();
  check(tasks.count > 0 && tasks.longest < 100, `no task of the page took 100 ms of a processor: ${tasks.longest.toFixed(0)} ms at most, of ${tasks.count}`);
  // A frozen page would show no frame as long as the run goes on. How long a frame waits for a processor depends on the machine, also
  // on one that does nothing else, so what the page itself takes of one is asked above.
  const taken = await tab.ask("run.milliseconds");
  check(longest < taken, `the page went on showing frames: the longest took ${longest.toFixed(0)} ms, the run ${taken.toFixed(0)}`);
  console.log(`a million turns: ${frames} frames, the longest ${longest.toFixed(0)} ms; the longest task of the page ${task.toFixed(0)} ms, and ${tasks.longest.toFixed(0)} ms of a processor; the run took ${taken.toFixed(0)} ms`);
}

async function tryStop(tab) {
  await put(tab, long(1000000, section));
  await click(tab, "run");
  await click(tab, "stop");
  check(await tab.until(`document.getElementById('status').textContent.includes('stopped')`), "a run can be stopped");
  await run(tab, read(examples, "tally_add.json"));
  check((await text(tab, "verdict")).includes("lawful"), "and the next one runs");
}

// A trap in the module, or the end of its worker, is told, and the next run goes on.
async function tryTrap(tab) {
  const told = await tab.ask(`ask("lwkt_show_turns", '{"trap":1}'${standin ? ", 'turns'" : ""}).then(() => "", (error) => error.message)`);
  check(told.length > 0, `a failed call is told: ${told}`);
  await run(tab, read(examples, "tally_add.json"));
  check((await text(tab, "verdict")).includes("lawful"), "after a trap the next run goes on");
}

async function tryOdd(tab) {
  await run(tab, begun);
  check((await text(tab, "verdict")).includes("Every thread ended"), "a script without threads");
  await run(tab, "");
  check((await text(tab, "refusal")).length > 0, "an empty text");
  await run(tab, "[".repeat(300));
  check((await text(tab, "refusal")).length > 0, "a deep text");
  await run(tab, `{"<b>\u00e4\u{1f600}</b>": "</script><img src=x>"}`);
  check((await tab.ask(`document.querySelectorAll('#refusal img, #refusal b').length`)) === 0, "texts stay texts");
  await run(tab, begun.replace('"turns":2', '"turns":2,"t\\u0075rns":3'));
  check((await text(tab, "verdict")).includes("lawful"), "a member that stands twice");
}

async function part(name, work) {
  if (!only.test(name)) return;
  try {
    await work();
  } catch (error) {
    check(false, `${name}: ${error.stack}`);
  }
}

try {
  const tab = await browser.open(url);
  check(await tab.until(`run && !isDrawing && document.querySelectorAll('.thread').length === 2`), "the page begins with a run");
  for (const name of exampleNames()) await part(name, () => tryExample(tab, name));
  for (const name of namesIn("litmus", ".lwkt")) await part(name, () => tryCourse(tab, name));
  for (const name of namesIn("version3", ".lwkt")) await part(name, () => tryDeciding(tab, name));
  for (const name of ["crossed_lists", "server_of_three", "law_broken_at_yield"]) await part(name, () => tryWalk(tab, name));
  for (const name of namesIn("refused", ".json")) await part(name, () => tryRefusal(tab, name));
  const parts = { tryStates, tryMessages, tryWhy, tryEditor, tryLines, tryOld, tryAsked, tryKeys, tryPlay, tryTabbing, tryLink, tryPaste, tryNames, tryParts, tryOdd, tryLong, tryStop, tryTrap, tryLessons, tryTexts, tryOrders, tryDifferences, tryReplay, tryRecords, tryUrgent };
  for (const [name, work] of Object.entries(parts)) await part(name, () => work(tab));
  await part("opening", tryOpening);
  await part("served", tryServed);
  await part("first link", tryFirstLink);
  if (!standin) await part("first run", tryFirst);
  await part("contrast", async () => { await tryContrast(false); await tryContrast(true); });
  await part("widths", tryWidths);
  same(tab.errors.filter((it) => !(standin && /500/.test(it))), [], "no errors");
  same(tab.requests.filter((it) => !/^(file|blob|data):/.test(it) && !(standin && it.includes("//127.0.0.1:"))), [], "no requests to any other place");
} finally {
  await browser.close();
  close();
}
if (counted.passed === 0) check(false, "nothing was tried");
finish();
