"use strict";
// Answers the page's calls in their order, so that a long run leaves the page free.
let library = null;
// A longer answer goes to the page as a file, so that the page needn't copy it.
const longestBytes = 1000000;

// The module's bytes, which the page has as text.
function unpack(packed) {
  const signs = atob(packed), bytes = new Uint8Array(signs.length);
  for (let i = 0; i < signs.length; i += 1) bytes[i] = signs.charCodeAt(i);
  return bytes;
}

function bytesOf(script) {
  if (typeof script === "string") return new TextEncoder().encode(script);
  return script instanceof Blob ? new Uint8Array(new FileReaderSync().readAsArrayBuffer(script)) : script;
}

// A call's status, fault and place, and what it wrote: a text, or a file of it.
function answerCall({ name, script, words, numbers, isLongFile }) {
  const texts = [bytesOf(script)];
  if (words !== undefined) texts.push(bytesOf(words));
  const since = performance.now();
  const { status, fault, place, bytes } = library.call(name, texts, numbers);
  const milliseconds = performance.now() - since;
  const isFile = isLongFile && bytes.length > longestBytes;
  return { status, fault, place, milliseconds, file: isFile ? new Blob([bytes]) : null, text: isFile ? "" : new TextDecoder().decode(bytes) };
}

onmessage = ({ data }) => {
  const { number } = data;
  try {
    if (data.packed) {
      library = new Library(unpack(data.packed));
      return;
    }
    const answer = answerCall(data);
    postMessage({ number, ...answer });
  } catch (error) {
    postMessage({ number, error: `${error.name}: ${error.message}` });
  }
};
