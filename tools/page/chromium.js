// A headless Chromium over a pipe, with no package: messages of the DevTools protocol are JSON, each ended by a zero byte.
"use strict";
const { spawn, spawnSync } = require("node:child_process");
const fs = require("node:fs");
const os = require("node:os");
const path = require("node:path");

const NAMES = ["chromium", "chromium-browser", "google-chrome"];
const FLAGS = ["--headless", "--disable-gpu", "--hide-scrollbars", "--disable-lcd-text", "--remote-debugging-pipe", "--no-first-run"];

const installed = () => NAMES.find((it) => !spawnSync(it, ["--version"], { stdio: "ignore" }).error);

class Chromium {
  constructor(name) {
    this.home = fs.mkdtempSync(path.join(os.tmpdir(), "dsmon-page-"));
    const asRoot = process.getuid?.() === 0 ? ["--no-sandbox"] : [];
    this.child = spawn(name, [...FLAGS, ...asRoot, `--user-data-dir=${this.home}`], { stdio: ["ignore", "ignore", "ignore", "pipe", "pipe"] });
    this.number = 0;
    this.waiting = new Map();
    this.said = [];
    this.rest = "";
    this.child.stdio[4].on("data", (bytes) => this.hear(bytes));
  }

  hear(bytes) {
    const messages = (this.rest + bytes).split("\0");
    this.rest = messages.pop();
    for (const it of messages.map((text) => JSON.parse(text))) {
      if (it.id) this.waiting.get(it.id)?.(it);
      if (it.method === "Runtime.exceptionThrown") this.said.push(it.params.exceptionDetails.exception?.description ?? it.params.exceptionDetails.text);
      if (it.method === "Runtime.consoleAPICalled") this.said.push(it.params.args.map((arg) => arg.value ?? arg.description).join(" "));
      if (it.method === "Log.entryAdded") this.said.push(`${it.params.entry.text} ${it.params.entry.url ?? ""}`);
    }
  }

  async send(method, params = {}) {
    this.number += 1;
    const number = this.number, answer = new Promise((done) => this.waiting.set(number, done));
    this.child.stdio[3].write(`${JSON.stringify({ id: number, method, params, sessionId: this.session })}\0`);
    const it = await answer;
    this.waiting.delete(number);
    if (it.error) throw new Error(`${method}: ${it.error.message}`);
    return it.result;
  }

  // Opens a tab of this size.
  async begin(width, height) {
    const { targetId } = await this.send("Target.createTarget", { url: "about:blank" });
    this.session = (await this.send("Target.attachToTarget", { targetId, flatten: true })).sessionId;
    for (const it of ["Runtime", "Log", "Page"]) await this.send(`${it}.enable`);
    await this.send("Emulation.setDeviceMetricsOverride", { width, height, deviceScaleFactor: 1, mobile: false });
  }

  // What an expression of the page comes to, after its promise.
  async value(expression) {
    const it = await this.send("Runtime.evaluate", { expression, awaitPromise: true, returnByValue: true });
    if (it.exceptionDetails) throw new Error(`${expression}: ${it.exceptionDetails.exception?.description ?? it.exceptionDetails.text}`);
    return it.result.value;
  }

  // Waits until an expression holds.
  async until(expression, seconds = 60) {
    for (const end = Date.now() + seconds * 1000; Date.now() < end; ) {
      if (await this.value(`!!(${expression})`).catch(() => false)) return;
      await new Promise((done) => setTimeout(done, 50));
    }
    throw new Error(`after ${seconds} s not yet: ${expression}`);
  }

  async key(name, modifiers = 0) {
    for (const type of ["rawKeyDown", "keyUp"]) await this.send("Input.dispatchKeyEvent", { type, key: name, code: name, modifiers });
  }

  async shot(file) {
    const { data } = await this.send("Page.captureScreenshot", { format: "png" });
    fs.writeFileSync(file, Buffer.from(data, "base64"));
  }

  async end() {
    const gone = new Promise((done) => this.child.on("exit", done));
    this.session = undefined;
    await this.send("Browser.close");
    await gone;
    fs.rmSync(this.home, { recursive: true, force: true });
  }
}

module.exports = { Chromium, installed };
