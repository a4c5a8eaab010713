"use strict";
// What the library says of texts of the language for scripts: their names, and whether their expectations hold.

// From where to where the word goes that begins at this line and column.
function wordAt(text, line, column) {
  const from = Math.min(placeOf(text, line, column), text.length);
  const word = /^[A-Za-z0-9_]+/.exec(text.slice(from)) || /^[^\sA-Za-z0-9_#;]+/.exec(text.slice(from));
  return { from, to: Math.min(text.length, from + (word ? word[0].length : 1)) };
}

// The sentences of a text, each with its first word and where it stands.
function sentencesOf(text) {
  const sentences = [];
  for (const { 0: piece, index } of text.matchAll(/#[^\n]*|[^#;\n]+/g)) {
    const found = /[^\s,:](?:[^]*[^\s,:])?/.exec(piece);
    if (!found || piece[0] === "#") continue;
    const from = index + found.index, [said] = found;
    sentences.push({ said, word: /^[\w~]*/.exec(said)[0], from, to: from + said.length });
  }
  return sentences;
}

// What a numbered copy of a text has as it is, what it leaves out, and what `end` ends.
const keptWords = ["turns", "idle", "cpus", "token", "message", "thread", "const", "for"];
const leftWords = ["var", "else", "end", "always", "sometimes", "never", "forall", "exists", "~exists", "~", "in"];
const openWords = ["for", "if", "while", "times", "loop"];

// The words that begin a sentence or stand in its head, for their color.
const knownWords = new Set([...keptWords, ...leftWords, ...openWords, ..."of on repeat service cells record sum any order cap tally len param gen law break assert get gets try rel swap read write add rrec wrec send do reply abort isab drop getport wait yield exit refused dropable abortable priority in rounds saw ended and or not".split(" ")]);

// What a piece of a script is by how it looks, for its color: of JSON a name, a string or a number, of a text a comment, a number or a
// word of the language; "" of all else.
function lookOf(piece, isText, behind) {
  if (/^-?\d/.test(piece)) return "number";
  if (piece[0] === "#") return "comment";
  if (piece[0] === '"') return /^\s*:/.test(behind) ? "word" : "string";
  return isText && knownWords.has(piece) ? "word" : "";
}

// A line of a script in pieces, each with its kind.
function piecesOf(line, isText) {
  const pieces = [], pattern = isText ? /#.*|[A-Za-z_]\w*|\d\w*/g : /"(?:[^"\\]|\\.)*"?|-?\d[\d.eE+-]*/g;
  let done = 0;
  for (const { 0: piece, index } of line.matchAll(pattern)) {
    const kind = lookOf(piece, isText, line.slice(index + piece.length));
    if (!kind) continue;
    pieces.push(["", line.slice(done, index)], [kind, piece]);
    done = index + piece.length;
  }
  return [...pieces, ["", line.slice(done)]].filter(([, piece]) => piece);
}

// A copy of a text in which each step is one that writes the number of its sentence, and none stands in another. The library repeats
// them as it does those of the text, so its JSON of the copy says of which sentence each step of a thread is.
function numberSteps(sentences) {
  const open = [];
  return sentences.map(({ said, word }, number) => {
    const ended = word === "end" ? open.pop() : "";
    if (openWords.includes(word)) open.push(word);
    if (keptWords.includes(word) || ended === "for") return said;
    return leftWords.includes(word) ? "" : `write 0.0 ${number}`;
  }).join("\n");
}

// Where the steps of each thread stand in a text, by the JSON of its numbered copy; left out of a thread that has another count of steps
// in the JSON of the text.
function textSteps(sentences, numbered, json) {
  const steps = jsonSteps(json), sentenceOf = ({ from, to }) => sentences[JSON.parse(numbered.slice(from, to)).pop()];
  const known = [...jsonSteps(numbered)].filter(([id, parts]) => parts.length === steps.get(id)?.length);
  return new Map(known.map(([id, parts]) => [id, parts.map(sentenceOf)]));
}

// The names of the cells that a token's sentence declares, or "" of a cell without one.
function cellNames(said) {
  const cells = /\bcells\b(.*)$/s.exec(said)?.[1] ?? "";
  return [...cells.matchAll(/(?:([A-Za-z_]\w*)\s*=?\s*)?\d+/g)].map(([, name]) => name ?? "");
}

// The names that a text gives to its tokens, their cells and its messages, by their numbers, and to its threads, by processor and number
// there. They are numbered in the order of their sentences; of a text that repeats sentences, or has a constant for a processor, no names
// are known.
function namesOf(text) {
  const names = { tokens: [], cells: [], messages: [], threads: new Map() }, counts = new Map();
  for (const { said } of sentencesOf(text)) {
    const [kind, name, , cpu] = said.split(/[\s,:]+/);
    if (kind === "for" || (kind === "thread" && !/^\d+$/.test(cpu))) return noNames;
    if (kind === "token") {
      names.tokens.push(name);
      names.cells.push(cellNames(said));
    }
    if (kind === "message") names.messages.push(name);
    if (kind !== "thread") continue;
    const number = counts.get(cpu) || 0;
    names.threads.set(`${Number(cpu)}.${number}`, name);
    counts.set(cpu, number + 1);
  }
  return names;
}

const noNames = { tokens: [], cells: [], messages: [], threads: new Map() };

// What a line of a text expects, each by itself.
function expectationsIn(line) {
  return line.replace(/#.*$/, "").split(";").map((it) => it.trim()).filter((it) => /^[\s,:]*(always|sometimes|never|forall|exists|~[\s,:]*exists|in[\s,:]+rounds)\b/.test(it));
}

// A line that says whether an expectation holds: `4: holds`; over all orders with the order of the outcome that decides it.
function readVerdict(line) {
  const found = /^(\d+): (holds|doesn't hold|not decided)(?:, order (.*))?$/.exec(line);
  if (!found) return null;
  const order = found[3] === undefined ? null : (found[3].match(/\d/g) || []).map(Number);
  return { line: Number(found[1]), words: found[2], order };
}

// All such lines of a text; of several on one line each has its place among them.
function verdictsIn(lines) {
  const seen = new Map(), verdicts = [];
  for (const verdict of lines.map(readVerdict).filter(Boolean)) {
    const place = seen.get(verdict.line) || 0;
    seen.set(verdict.line, place + 1);
    verdicts.push({ ...verdict, place });
  }
  return verdicts;
}

// What a verdict is on, as it stands in the lines of the text.
function saidAt(rows, { line, place }) {
  const row = rows[line - 1] || "";
  return expectationsIn(row)[place] || row.trim();
}

// The verdicts behind the report of a text, each with what it is on.
function readVerdicts(report, script) {
  const rows = script.split("\n");
  return verdictsIn(report.split("\n")).map((verdict) => ({ ...verdict, said: saidAt(rows, verdict) }));
}
