// The program, in a worker of its own: it is called with words and files, and can be stopped at any time.
"use strict";
(function (dsmon) {
  // The smallest module whose memory has addresses of 64 bits: an engine that takes it takes the program as it is.
  const WITH_64_BITS = new Uint8Array([0, 0x61, 0x73, 0x6d, 1, 0, 0, 0, 5, 3, 1, 4, 1]);

  const fromBase64 = (text) => Uint8Array.from(atob(text), (it) => it.charCodeAt(0));

  // The bytes of the first of these files that is there.
  async function fetched(...names) {
    for (const name of names) {
      const answer = await fetch(name);
      if (answer.ok) return new Uint8Array(await answer.arrayBuffer());
    }
    throw new Error(`${names.join(" and ")}: not there`);
  }

  async function moduleBytes() {
    if (typeof WebAssembly !== "object") throw new Error("it has no WebAssembly, in which the program is written. Take a browser of the last years");
    if (dsmon.within) return fromBase64(dsmon.within.module);
    if (location.protocol === "file:") throw new Error("a page in several files does not open from a disk. Open dsmon.html, which is one file");
    return WebAssembly.validate(WITH_64_BITS) ? fetched("dsmon.wasm") : fetched("dsmon32.wasm", "dsmon.wasm");
  }

  function newWorker() {
    if (!dsmon.within) return new Worker("worker.js");
    return new Worker(URL.createObjectURL(new Blob([dsmon.within.worker], { type: "text/javascript" })));
  }

  class Program {
    constructor() {
      this.waiting = new Map();
      this.number = 0;
    }

    // Loads the program, once, and starts a worker.
    async start() {
      this.bytes ??= await moduleBytes();
      this.worker = newWorker();
      await new Promise((ready, failed) => {
        this.worker.onerror = (event) => failed(new Error(event.message || "the worker does not start"));
        this.worker.onmessage = ({ data }) => {
          if (data.ready) ready();
          else if (data.number === undefined) failed(new Error(data.failed));
          else this.answer(data.number, data);
        };
        this.worker.postMessage({ module: this.bytes });
      });
    }

    answer(number, answer) {
      this.waiting.get(number)?.(answer);
      this.waiting.delete(number);
    }

    // Runs the program with these words and files: its status, what it wrote, and how long it took; or why it failed.
    call(words, files) {
      this.number += 1;
      return new Promise((done) => {
        this.waiting.set(this.number, done);
        this.worker.postMessage({ number: this.number, words, files });
      });
    }

    // Ends what runs, and starts anew: who waits for an answer is told that it was stopped.
    async stop() {
      this.worker.terminate();
      for (const number of [...this.waiting.keys()]) this.answer(number, { stopped: true });
      await this.start();
    }
  }

  Object.assign(dsmon, { Program });
})(globalThis.dsmon ||= {});
