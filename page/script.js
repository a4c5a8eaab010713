"use strict";
// Finds parts in the text of a script without reading its numbers, which have up to 64 bits.

const blank = /[ \t\r\n]/;

// The most bytes of a script, and the most lines that are shown: to select all of three times as many takes a browser seconds.
const mostBytes = 1048576, mostLines = 3000;
const byteWords = `more than ${mostBytes} bytes, the most that a script may have`;

// How many lines a text has, as a browser breaks them.
function countLines(text) {
  let count = 1;
  for (let i = 0; i < text.length; i += 1) {
    const code = text.charCodeAt(i);
    if (code === 10 ? text.charCodeAt(i - 1) !== 13 : code === 13) count += 1;
  }
  return count;
}

// What a text has too much of to be shown, in words, or null.
function longWords(text) {
  if (text.length > mostBytes || new TextEncoder().encode(text).length > mostBytes) return byteWords;
  return countLines(text) > mostLines ? `more than ${mostLines} lines, the most that this page shows` : null;
}

function skipBlanks(text, at) {
  while (at < text.length && blank.test(text[at])) at += 1;
  return at;
}

// Behind the string that begins here.
function skipString(text, at) {
  for (at += 1; at < text.length && text[at] !== '"'; at += 1) if (text[at] === "\\") at += 1;
  return Math.min(at + 1, text.length);
}

// Behind the value that begins here; in a text that is none, behind what looks like one.
function skipValue(text, at) {
  let depth = 0;
  do {
    at = skipBlanks(text, at);
    if (at >= text.length) return at;
    const sign = text[at];
    if (sign === '"') at = skipString(text, at);
    else if ("[{".includes(sign)) { depth += 1; at += 1; }
    else if ("]}".includes(sign)) { depth -= 1; at += 1; }
    else if (",:".includes(sign)) at += 1;
    else while (at < text.length && !/[\s,:[\]{}"]/.test(text[at])) at += 1;
  } while (depth > 0);
  return at;
}

// The members of the object that begins here, each with its name and where its value stands.
function membersOf(text, from = 0) {
  const members = [];
  let at = skipBlanks(text, from);
  if (text[at] !== "{") return members;
  at = skipBlanks(text, at + 1);
  while (text[at] === '"') {
    const behind = skipString(text, at);
    const name = JSON.parse(text.slice(at, behind));
    const begin = skipBlanks(text, skipBlanks(text, behind) + 1);
    const to = skipValue(text, begin);
    members.push({ name, from: begin, to });
    at = skipBlanks(text, to);
    if (text[at] === ",") at = skipBlanks(text, at + 1);
  }
  return members;
}

// Where each item stands of the list that begins here.
function itemsOf(text, from) {
  const items = [];
  let at = skipBlanks(text, from + 1);
  while (text[from] === "[" && at < text.length && text[at] !== "]") {
    const to = skipValue(text, at);
    items.push({ from: at, to });
    at = skipBlanks(text, to);
    if (text[at] === ",") at = skipBlanks(text, at + 1);
  }
  return items;
}

// Where each step stands of the list that begins here, each before those inside it. A list of steps begins with a list, and any other
// part of a step doesn't.
function stepsIn(text, from) {
  const isSteps = (part) => text[part.from] === "[" && text[skipBlanks(text, part.from + 1)] === "[";
  return itemsOf(text, from).flatMap((step) => [step, ...itemsOf(text, step.from).filter(isSteps).flatMap((part) => stepsIn(text, part.from))]);
}

// Where the steps of each thread stand in JSON, by the thread's processor and its number there, as `0.1`.
function jsonSteps(text) {
  const steps = new Map(), counts = new Map(), partOf = (members, name) => members.findLast((it) => it.name === name);
  const threads = partOf(membersOf(text), "threads");
  for (const { from } of threads ? itemsOf(text, threads.from) : []) {
    const members = membersOf(text, from), cpu = partOf(members, "cpu"), list = partOf(members, "steps");
    const key = Number(text.slice(cpu.from, cpu.to)), number = counts.get(key) || 0;
    steps.set(`${key}.${number}`, stepsIn(text, list.from));
    counts.set(key, number + 1);
  }
  return steps;
}

// The same script, cut off after so many rounds. Of two sentences of a text that say how many there are the last one counts.
function cutScript(text, rounds, isText = false) {
  if (isText) return `${text}\nturns ${rounds}`;
  let cut = "", at = 0;
  for (const member of membersOf(text)) {
    if (member.name !== "turns") continue;
    cut += text.slice(at, member.from) + String(rounds);
    at = member.to;
  }
  return cut + text.slice(at);
}

// Where a line and a column from 1 are in the text, a column being a byte.
function placeOf(text, line, column) {
  let at = 0;
  for (let passed = 1; passed < line; passed += 1) {
    const next = text.indexOf("\n", at);
    if (next < 0) return text.length;
    at = next + 1;
  }
  for (let bytes = 1; bytes < column && at < text.length; ) {
    const code = text.codePointAt(at);
    bytes += code < 0x80 ? 1 : code < 0x800 ? 2 : code < 0x10000 ? 3 : 4;
    at += code > 0xffff ? 2 : 1;
  }
  return at;
}

// From where to where the part goes that begins at this line and column.
function partAt(text, line, column) {
  const from = Math.min(placeOf(text, line, column), Math.max(0, text.length - 1));
  const to = Math.max(skipValue(text, from), from + 1);
  return { from, to: Math.min(to, text.length) };
}
