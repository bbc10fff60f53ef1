// Runs the program in a worker, so that the page answers while a guest runs. After `host.js`, of which it makes its world.
"use strict";
if (!globalThis.dsmon) importScripts("host.js");

// A promise, so that a call waits until the program is there.
let program;

async function serve({ module, number, words, files }) {
  if (module) {
    program = WebAssembly.compile(module);
    await program;
    return { ready: true };
  }
  const compiled = await program, began = performance.now();
  const { status, out, err } = dsmon.run(compiled, words, files);
  return { number, status, out, err, milliseconds: performance.now() - began };
}

onmessage = async ({ data }) => {
  try {
    const answer = await serve(data);
    postMessage(answer, answer.out ? [answer.out.buffer, answer.err.buffer] : []);
  } catch (error) {
    postMessage({ number: data.number, failed: String(error) });
  }
};
