"use strict";
// The library as a WebAssembly module. It is made anew after a trap, and after a call that took much memory, which a module
// never gives back.
const answerSize = 16;
const mostKept = 64 * 1024 * 1024;
const firstRoom = 256 * 1024;

class Library {
  constructor(bytes) {
    this.compiled = new WebAssembly.Module(bytes);
    this.instance = null;
  }

  // Calls a function by its name, with texts of bytes, and numbers behind them: what it wrote, and its status, fault and place.
  call(name, texts, numbers = []) {
    this.instance ??= new WebAssembly.Instance(this.compiled);
    try {
      if (name === "lwkt_is_text") return this.askForm(texts[0]);
      let answer = this.callWith(name, texts, numbers, firstRoom);
      if (answer.length > answer.bytes.length) answer = this.callWith(name, texts, numbers, answer.length);
      if (this.instance.exports.memory.buffer.byteLength > mostKept) this.instance = null;
      return answer;
    } catch (error) {
      this.instance = null;
      throw error;
    }
  }

  // Room in the module's memory.
  take(length) {
    const place = this.instance.exports.page_take(BigInt(length));
    if (place === 0n) throw new Error("the module has no memory left");
    return Number(place);
  }

  // Whether bytes are taken for a text: the status alone.
  askForm(bytes) {
    const { exports } = this.instance;
    const place = this.take(bytes.length);
    new Uint8Array(exports.memory.buffer, place, bytes.length).set(bytes);
    const status = exports.lwkt_is_text(BigInt(place), BigInt(bytes.length));
    exports.page_give(BigInt(place));
    return { status, length: 0, fault: 0, place: 0, bytes: new Uint8Array(0) };
  }

  // A call with so much room for what is written.
  callWith(name, texts, numbers, room) {
    const { exports } = this.instance;
    const places = texts.map((bytes) => this.take(bytes.length));
    const out = this.take(room), answer = this.take(answerSize);
    texts.forEach((bytes, i) => new Uint8Array(exports.memory.buffer, places[i], bytes.length).set(bytes));
    const passed = texts.flatMap((bytes, i) => [BigInt(places[i]), BigInt(bytes.length)]);
    const status = exports[name](...passed, ...numbers.map(BigInt), BigInt(out), BigInt(room), BigInt(answer));
    const view = new DataView(exports.memory.buffer, answer, answerSize);
    const length = Number(view.getBigUint64(0, true)), fault = view.getUint32(8, true), place = view.getUint32(12, true);
    const bytes = new Uint8Array(exports.memory.buffer, out, Math.min(length, room)).slice();
    for (const it of [...places, out, answer]) exports.page_give(BigInt(it));
    return { status, length, fault, place, bytes };
  }
}
