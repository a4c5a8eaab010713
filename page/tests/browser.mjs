// Drives a browser by its remote protocol, over a pipe: no package is needed for it.
import { spawn } from "node:child_process";
import { mkdtempSync, rmSync } from "node:fs";
import { tmpdir } from "node:os";
import { join } from "node:path";

export class Browser {
  constructor(program) {
    this.folder = mkdtempSync(join(tmpdir(), "page-browser-"));
    const words = ["--headless", "--remote-debugging-pipe", `--user-data-dir=${this.folder}`, "--no-first-run", "--disable-gpu", "--disable-extensions", "--hide-scrollbars=false", "about:blank"];
    if (process.getuid() === 0) words.unshift("--no-sandbox");
    this.process = spawn(program, words, { stdio: ["ignore", "ignore", "ignore", "pipe", "pipe"] });
    this.calls = new Map();
    this.listeners = [];
    this.count = 0;
    this.left = "";
    this.process.stdio[4].on("data", (data) => this.read(data.toString()));
  }

  read(text) {
    const parts = (this.left + text).split("\0");
    this.left = parts.pop();
    for (const part of parts) this.take(JSON.parse(part));
  }

  take(message) {
    if (message.id === undefined) return this.listeners.forEach((listener) => listener(message));
    const { resolve, reject } = this.calls.get(message.id);
    this.calls.delete(message.id);
    if (message.error) reject(new Error(JSON.stringify(message.error)));
    else resolve(message.result);
  }

  send(method, params = {}, sessionId) {
    this.count += 1;
    const id = this.count;
    this.process.stdio[3].write(`${JSON.stringify({ id, method, params, sessionId })}\0`);
    return new Promise((resolve, reject) => this.calls.set(id, { resolve, reject }));
  }

  async close() {
    await this.send("Browser.close").catch(() => {});
    const isEnded = new Promise((resolve) => this.process.once("exit", resolve));
    setTimeout(() => this.process.kill(), 2000).unref();
    await isEnded;
    rmSync(this.folder, { recursive: true, force: true, maxRetries: 20, retryDelay: 100 });
  }

  // Begins to note each task of the browser's threads; `tasksOf` ends it.
  async noteTasks() {
    this.noted = [];
    this.listeners.push((message) => message.method === "Tracing.dataCollected" && this.noted.push(...message.params.value));
    await this.send("Tracing.start", { transferMode: "ReportEvents", traceConfig: { includedCategories: ["toplevel", "__metadata"] } });
  }

  // The most processor time in milliseconds that a task of a page's main thread took, and how many tasks there were.
  async tasksOf() {
    const isDone = new Promise((resolve) => this.listeners.push((message) => message.method === "Tracing.tracingComplete" && resolve()));
    await this.send("Tracing.end");
    await isDone;
    const mains = new Set(this.noted.filter((it) => it.name === "thread_name" && it.args.name === "CrRendererMain").map((it) => `${it.pid} ${it.tid}`));
    const times = this.noted.filter((it) => it.ph === "X" && it.tdur !== undefined && mains.has(`${it.pid} ${it.tid}`)).map((it) => it.tdur / 1000);
    return { longest: Math.max(0, ...times.slice(-100000)), count: times.length };
  }

  async open(url, { width = 1280, height = 900, dark = false } = {}) {
    const { targetId } = await this.send("Target.createTarget", { url: "about:blank" });
    const { sessionId } = await this.send("Target.attachToTarget", { targetId, flatten: true });
    const tab = new Tab(this, sessionId, targetId);
    await tab.begin(url, { width, height, dark });
    return tab;
  }
}

class Tab {
  constructor(browser, session, target) {
    Object.assign(this, { browser, session, target, requests: [], errors: [] });
  }

  send(method, params) {
    return this.browser.send(method, params, this.session);
  }

  async begin(url, { width, height, dark }) {
    this.browser.listeners.push((message) => message.sessionId === this.session && this.note(message));
    await Promise.all(["Page", "Runtime", "Network", "Log"].map((domain) => this.send(`${domain}.enable`)));
    await this.send("Emulation.setDeviceMetricsOverride", { width, height, deviceScaleFactor: 1, mobile: false });
    await this.send("Emulation.setEmulatedMedia", { features: [{ name: "prefers-color-scheme", value: dark ? "dark" : "light" }] });
    await this.go(url);
  }

  note({ method, params }) {
    if (method === "Network.requestWillBeSent") this.requests.push(params.request.url);
    if (method === "Runtime.exceptionThrown") this.errors.push(params.exceptionDetails.exception?.description || params.exceptionDetails.text);
    if (method === "Log.entryAdded" && params.entry.level === "error") this.errors.push(params.entry.text);
  }

  async go(url) {
    await this.send("Page.navigate", { url });
    await this.until("document.readyState === 'complete'");
  }

  async ask(expression) {
    const { result, exceptionDetails } = await this.send("Runtime.evaluate", { expression, awaitPromise: true, returnByValue: true, userGesture: true });
    if (exceptionDetails) throw new Error(exceptionDetails.exception?.description || exceptionDetails.text);
    return result.value;
  }

  // Waits until an expression holds; says whether it came to hold.
  async until(expression, seconds = 20) {
    const end = Date.now() + seconds * 1000;
    while (Date.now() < end) {
      if (await this.ask(expression).catch(() => false)) return true;
      await new Promise((resolve) => setTimeout(resolve, 15));
    }
    return false;
  }

  async key(key, { ctrl = false, shift = false, text } = {}) {
    const codes = { Enter: 13, Tab: 9, ArrowDown: 40, ArrowUp: 38, ArrowLeft: 37, ArrowRight: 39, Home: 36, End: 35, PageDown: 34, PageUp: 33, " ": 32 };
    const event = { key, code: key === " " ? "Space" : key, windowsVirtualKeyCode: codes[key] || 0, modifiers: (ctrl ? 2 : 0) + (shift ? 8 : 0) };
    await this.send("Input.dispatchKeyEvent", { type: text ? "keyDown" : "rawKeyDown", ...event, ...(text ? { text } : {}) });
    await this.send("Input.dispatchKeyEvent", { type: "keyUp", ...event });
  }

  // What is in view, as a PNG.
  async picture() {
    const { data } = await this.send("Page.captureScreenshot", { format: "png" });
    return Buffer.from(data, "base64");
  }

  async close() {
    await this.browser.send("Target.closeTarget", { targetId: this.target });
  }
}
