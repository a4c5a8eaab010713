"use strict";
// For the tests of the page alone: in the place of the module, the program of this tree, asked from the test's own server.
class Library {
  call(name, texts, numbers = []) {
    const request = new XMLHttpRequest();
    const words = texts[1] ? new TextDecoder().decode(texts[1]) : numbers.join(" ");
    request.open("POST", `@@server@@/call/${name}?${encodeURIComponent(words)}`, false);
    request.send(texts[0]);
    if (request.status === 500) throw new WebAssembly.RuntimeError("unreachable");
    const { status, fault, place, text } = JSON.parse(request.responseText);
    const bytes = new TextEncoder().encode(text);
    return { status, fault, place, length: bytes.length, bytes };
  }
}
