"use strict";
// Reads what the library writes: the lines of a run, what stands behind them, reports and refusals. What a turn did is taken from
// its line; nothing here knows what a step does.

// A part of a line about a token or a message: `token 0: word 0 -> 1, held exclusively by 0.0`.
function readEvent(text) {
  const found = /^(token|message) (\d+): (.*)$/s.exec(text);
  if (!found) return null;
  const event = { of: found[1], number: Number(found[2]), said: found[3], text };
  const word = /^word (\d+) -> (\d+)(?:, (.*))?$/.exec(event.said);
  if (word) Object.assign(event, { before: word[1], after: word[2], what: word[3] || "" });
  const stored = /^cell (\d+) (?:is (\d+)|(\d+) -> (\d+))$/.exec(event.said);
  if (stored) Object.assign(event, { cell: Number(stored[1]), value: stored[2] ?? stored[4], first: stored[3] ?? null });
  const record = /^(?:record (.*)|an empty record) (?:read|stored)$/s.exec(event.said);
  if (event.of === "token" && record) event.record = record[1] ?? "empty";
  const place = /^round (\d+), (.*)$/.exec(event.said);
  if (event.of === "message" && place) Object.assign(event, { round: place[1], place: place[2] });
  return event;
}

// The parts of a line that semicolons stand between, but for those in the text of a record.
function partsIn(text) {
  const parts = [], quoted = /^[^';]*record '.{1,24}?'(?:\.\., \d+ bytes)?(?: read| stored)?(?=; |$)/s;
  for (let rest = text; rest !== null; ) {
    const found = quoted.exec(rest), end = found ? found[0].length : rest.indexOf("; ");
    parts.push(end < 0 ? rest : rest.slice(0, end));
    rest = end < 0 || end === rest.length ? null : rest.slice(end + 2);
  }
  return parts;
}

// The events of a line. A part that is about nothing by itself goes on with what the part before it says.
function readEvents(parts) {
  const events = [];
  for (const part of parts) {
    const event = readEvent(part);
    if (event) events.push(event);
    else if (events.length) events[events.length - 1].text += `; ${part}`;
  }
  return events;
}

// What a line says of a turn that ran a thread, behind its head. What the thread computed, if it did, stands before its step.
function readPoll(turn, rest) {
  const found = /^, thread (\d+\.\d+), (?:([^:]*); )?([^:;]*): (\[.*?\]): (.*)$/s.exec(rest);
  if (!found) return;
  const [outcome, ...parts] = partsIn(found[5]);
  Object.assign(turn, { thread: found[1], made: found[2] ?? "", step: found[3], ask: found[4], outcome, events: readEvents(parts) });
}

// Where the step stands that a turn's thread asks for, by where the steps of each thread do; nothing where that isn't known.
function askPlace(turn, steps) {
  const found = /^step (\d+)/.exec(turn.step ?? "");
  return found ? steps.get(turn.thread)?.[Number(found[1])] : undefined;
}

// What a line says of a turn that ran none: of each thread of the processor why.
function readIdle(turn, rest) {
  turn.idle = new Map();
  const parts = partsIn(rest.replace(/^: (no thread runs: )?/, ""));
  const others = [];
  for (const part of parts) {
    const found = /^(\d+\.\d+) (.*)$/s.exec(part);
    if (found) turn.idle.set(found[1], found[2]);
    else if (part !== "no thread is left") others.push(part);
  }
  turn.outcome = turn.idle.size ? "no thread runs" : "no thread is left";
  turn.events = readEvents(others);
}

// The line of a turn, or null for any other line.
function readTurn(line) {
  const found = /^turn (\d+), round (\d+), processor (\d+)/.exec(line);
  if (!found) return null;
  const turn = { number: Number(found[1]), round: Number(found[2]), cpu: Number(found[3]), line, events: [] };
  const rest = line.slice(found[0].length);
  if (rest.startsWith(":")) readIdle(turn, rest);
  else readPoll(turn, rest);
  return turn;
}

// The line of a thread in a report.
function readThread(line) {
  const found = /^thread (\d+\.\d+) (exited|faulted \d+|ready|waiting|running) list (.*?) log (.*)$/.exec(line);
  if (!found) return null;
  const parts = (text) => (text === "-" ? [] : text.split(" "));
  return { id: found[1], state: found[2], list: parts(found[3]), log: parts(found[4]) };
}

// A line behind the turns that says why a thread hasn't ended, or how it faulted.
function readWhy(line) {
  const found = /^the turns are used up, and thread (\d+\.\d+) (.*)$/.exec(line) || /^thread (\d+\.\d+) (ended faulted .*)$/.exec(line);
  return found && { id: found[1], said: found[2] };
}

// Where the report begins: the first line that is none of what stands before it.
function reportStart(lines) {
  const isReport = (line) => /^(token \d+ gen |record \d+ |message \d+ round |thread \d+\.\d+ (exited|faulted|ready|waiting|running) |lawful$|unlawful )/.test(line);
  const at = lines.findIndex(isReport);
  return at < 0 ? lines.length : at;
}

// The lines of a text that ends with a line feed.
function linesOf(text) {
  const lines = text.split("\n");
  if (lines[lines.length - 1] === "") lines.pop();
  return lines;
}

// Adds the turns of some lines, from this one on, up to the first that is none; says which that is.
function addTurns(turns, lines, at, end) {
  for (; at < end; at += 1) {
    const turn = readTurn(lines[at]);
    if (!turn) break;
    turns.push(turn);
  }
  return at;
}

// All that `turns` writes.
function readRun(text) {
  const lines = linesOf(text), turns = [];
  return readRest(lines, turns, addTurns(turns, lines, 0, lines.length));
}

// Long work, cut into parts: between two of them the page answers, where 4 ms have gone by.
class Slices {
  constructor() {
    this.since = performance.now();
  }

  async rest() {
    if (performance.now() - this.since < 4) return;
    await new Promise((resolve) => setTimeout(resolve));
    this.since = performance.now();
  }
}

// The same, a few lines at a time.
async function readSlowly(text) {
  const lines = linesOf(text), turns = [], few = 50, slices = new Slices();
  let at = 0, end = 0;
  do {
    end = Math.min(end + few, lines.length);
    at = addTurns(turns, lines, at, end);
    await slices.rest();
  } while (at === end && end < lines.length);
  return readRest(lines, turns, at);
}

// What stands behind the turns of a run, whose lines begin here.
function readRest(lines, turns, at) {
  const start = at + reportStart(lines.slice(at));
  const between = lines.slice(at, start), report = lines.slice(start);
  const choice = between.filter((line) => /^turns (before|behind) turn /.test(line));
  const all = /of (\d+) in all/.exec(choice.join("\n"));
  const total = all ? Number(all[1]) : turns.length ? turns[turns.length - 1].number + 1 : 0;
  const whys = new Map(between.map(readWhy).filter(Boolean).map((why) => [why.id, why.said]));
  const threads = report.map(readThread).filter(Boolean);
  return { turns, total, ends: between.filter((line) => !choice.includes(line)), whys, threads, report, verdict: report[report.length - 1] || "" };
}

// The openings of the tokens, of what `turns --chains` writes.
function readOpenings(text) {
  const tokens = [];
  for (const line of text.split("\n")) {
    const head = /^token (\d+), law (.*)$/.exec(line);
    if (head) tokens.push({ law: head[2] });
    const opening = /^opening: generation (\d+), row(.*)$/.exec(line);
    if (opening) Object.assign(tokens[tokens.length - 1], { generation: opening[1], row: opening[2].trim().split(" ").filter((cell) => cell && cell !== "-") });
  }
  return tokens;
}

// The parts of a token's word, as docs/MODEL.md lays it out.
function partsOf(word) {
  const bits = BigInt(word);
  return { exclusive: Number(bits & 1n), mark: Number((bits >> 1n) & 1n), count: Number((bits >> 2n) & 0xffffn), generation: String(bits >> 18n) };
}

// All that a refusal says is wrong, each with its line and column from 1, a column being a byte: `lwkt: standard input:3:9: WORDS`.
// Behind each stand the line and a mark, which begin with blanks, and perhaps what was meant.
function readWrongs(text) {
  const wrongs = [];
  for (const line of text.split("\n")) {
    const found = /^lwkt: standard input:(\d+):(\d+): (.*?)(?: \(fault \d+(?: at \d+)?\))?$/.exec(line), near = /^ {4}did you mean `(.*)`\?$/.exec(line);
    if (found) wrongs.push({ line: Number(found[1]), column: Number(found[2]), said: found[3] });
    else if (near && wrongs.length) wrongs.at(-1).said += ` (${near[1]}?)`;
  }
  return wrongs;
}

// A refusal that names no place, in words.
function readRefusal(text) {
  return text.trim().replace(/^lwkt: (?:standard input: )?/, "");
}

// A record by its digits, in the words that lines have for it: its text where all of it is printable, else the digits, and of a
// long one the front.
function recordWords(digits) {
  const bytes = (digits.match(/../g) || []).map((it) => parseInt(it, 16));
  if (!bytes.length) return "empty";
  const isText = bytes.every((byte) => byte >= 32 && byte < 127 && !'"&<>'.includes(String.fromCharCode(byte)));
  const front = bytes.slice(0, 24);
  const shown = isText ? `'${String.fromCharCode(...front)}'` : digits.slice(0, 48);
  return bytes.length > 24 ? `${shown}.., ${bytes.length} bytes` : shown;
}

// An entry of a log; the digits of a record that was read as text, where they are one.
function entryWords(entry) {
  const found = /^b=(-|(?:[0-9a-f]{2})+)$/.exec(entry);
  return found && found[1] !== "-" ? `b=${recordWords(found[1])}` : entry;
}

// What stood before any turn: the rows and records as they open, and each message at rest with its owner. The records are the
// script's own, or null where a token has none.
function openState(openings, messages, records = []) {
  const tokens = openings.map((it, number) => ({ law: it.law, row: [...it.row], record: records[number] ?? null, generation: it.generation, word: null, holders: "free", told: null }));
  const posts = messages.map((it) => ({ owner: it.of, round: String(it.round), place: `at rest with ${it.of[0]}`, isUrgent: false, from: null, told: null }));
  return { tokens, messages: posts };
}

// The same where what came before isn't known.
function unknownState(openings, messages, records = []) {
  const state = openState(openings, messages, records);
  for (const token of state.tokens) Object.assign(token, { row: token.row.map(() => null), record: token.record === null ? null : "?", holders: null, generation: null });
  for (const post of state.messages) Object.assign(post, { round: null, place: null, isUrgent: null });
  return state;
}

function copyState(state) {
  return { tokens: state.tokens.map((it) => ({ ...it, row: [...it.row] })), messages: state.messages.map((it) => ({ ...it })) };
}

function tellToken(token, event, turn) {
  if (event.after !== undefined) {
    token.word = event.after;
    token.generation = partsOf(event.after).generation;
    const held = /(held .*|free)/.exec(event.what.replace(/, (not written|generation \d+)$/, ""));
    if (held) token.holders = held[1];
    token.told = turn.number;
  }
  if (event.cell !== undefined) token.row[event.cell] = event.value;
  if (event.record !== undefined) token.record = event.record;
}

// Whether a turn sent a message with priority; null where it sent none.
function isSentUrgent(turn, number) {
  const sent = /^\["(send|do)",(\d+),\d+,\d+,\d+,\d+(?:,(\d+))?\]$/.exec(turn.ask || "");
  if (!sent || Number(sent[2]) !== number) return null;
  return sent[1] === "send" && (Number(sent[3]) & 4) !== 0;
}

function tellMessage(post, event, turn) {
  if (event.place === undefined) return;
  Object.assign(post, { round: event.round, place: event.place, from: turn.cpu, told: turn.number });
  // The reply to an urgent message is urgent too.
  if (event.place.startsWith("out to ")) post.isUrgent = isSentUrgent(turn, event.number) ?? post.isUrgent;
  if (event.place.startsWith("at rest")) post.isUrgent = false;
}

// What the line of a turn changes in what is known.
function tell(state, turn) {
  for (const event of turn.events) {
    if (event.of === "token" && state.tokens[event.number]) tellToken(state.tokens[event.number], event, turn);
    if (event.of === "message" && state.messages[event.number]) tellMessage(state.messages[event.number], event, turn);
  }
}

// The words that tokens have before their first step in these turns: the line of that step tells it.
function tellFirstWords(state, turns) {
  for (const turn of turns) {
    for (const event of turn.events) {
      const token = event.of === "token" && event.before !== undefined && state.tokens[event.number];
      if (token && token.word === null && token.told === null && token.firstWord === undefined) token.firstWord = event.before;
    }
  }
  for (const token of state.tokens) {
    if (token.word === null && token.firstWord !== undefined) {
      token.word = token.firstWord;
      token.generation = partsOf(token.word).generation;
    }
  }
}
