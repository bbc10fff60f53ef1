#!/usr/bin/env node
// Runs every row and every case of crates/rows/data in the page's module, by the page's host, and compares.
//
//     tools/page_rows.js TO/dsmon.wasm       (before node 24 with --experimental-wasm-memory64)
//     tools/page_rows.js TO/dsmon32.wasm
//
// What a row, a table and a case are stands in crates/rows/README.md. The status is 1 where something is otherwise.
"use strict";
const fs = require("node:fs");
const path = require("node:path");
require("../page/host.js");

const DATA = path.join(__dirname, "../crates/rows/data");
const SHOWN = 20;
const NOTHING = Buffer.alloc(0);

const index = (name) => fs.readFileSync(path.join(DATA, name), "utf8").split("\n").filter((it) => it && !it.startsWith("#"));

// What a folder has, looked up when it is asked for; `own` has one text in the place of a file.
function filesOf(folder, own = {}) {
  const found = (name) => (Object.hasOwn(own, name) ? own[name] : read(path.join(DATA, folder, name)));
  return new Proxy({}, {
    getOwnPropertyDescriptor: (_, name) => (found(name) ? { value: found(name), configurable: true, enumerable: true } : undefined),
    get: (_, name) => found(name),
  });
}

function read(file) {
  try {
    return fs.readFileSync(file);
  } catch {
    return undefined;
  }
}

function ran(module, folder, words, own) {
  try {
    const it = globalThis.dsmon.run(module, words, filesOf(folder, own));
    return { status: it.status, out: Buffer.from(it.out), err: Buffer.from(it.err) };
  } catch (why) {
    return { status: String(why), out: NOTHING, err: NOTHING };
  }
}

class Judge {
  constructor() {
    this.good = 0;
    this.bad = 0;
  }

  take(isGood, what, it) {
    if (isGood) this.good += 1; else this.bad += 1;
    if (!isGood && this.bad <= SHOWN) console.log(`${what}: status ${it.status}, ${it.out.length} bytes, ${JSON.stringify(it.err.toString().slice(0, 200))}`);
  }
}

function rows(module, judge) {
  for (const line of index("rows")) {
    const [folder, status, text, ...words] = line.split(" "), it = ran(module, folder, words);
    const wanted = fs.readFileSync(path.join(DATA, folder, text));
    judge.take(it.status === +status && Buffer.concat([it.out, it.err]).equals(wanted), line, it);
  }
}

// Lines of a file of cases as the bytes that they stand for.
function bytesOf(lines) {
  const marks = { "\\\\": "\\", "\\r": "\r" };
  const text = lines.map((line) => {
    const ends = !/(^|[^\\])(\\\\)*\\$/.test(line);
    return (ends ? line : line.slice(0, -1)).replace(/\\\\|\\r|\\x(..)/g, (it, digits) => marks[it] ?? String.fromCharCode(parseInt(digits, 16))) + (ends ? "\n" : "");
  });
  return Buffer.from(text.join(""), "latin1");
}

// The cases of a file: each has its name, its text, the verdict, and the lines that are expected after it.
function casesOf(file) {
  const lines = fs.readFileSync(file, "latin1").replace(/\n$/, "").split("\n"), found = [];
  for (const line of lines) {
    const last = found[found.length - 1];
    if (line.startsWith("== ")) found.push({ name: line.slice(3), text: [], after: [] });
    else if (last && last.verdict !== undefined) last.after.push(line);
    else if (last && /^--( |$)/.test(line)) last.verdict = line.slice(3);
    else if (last) last.text.push(line);
  }
  return found;
}

function isAsExpected(it, { verdict, after }) {
  if (verdict === "ok") return it.status === 0;
  if (!verdict) return it.status === 0 && Buffer.concat([it.out, it.err]).equals(bytesOf(after));
  const told = after.filter((line) => line.startsWith("| ") || line === "|").map((line) => line.slice(2));
  return it.status === 2 && !it.out.length && it.err.equals(bytesOf([`dsmon: ${verdict}`, ...told]));
}

function tables(module, judge) {
  for (const line of index("tables")) {
    const [folder, name, cases, ...words] = line.split(" ");
    for (const one of casesOf(path.join(DATA, folder, cases))) {
      const it = ran(module, folder, words, { [name]: bytesOf(one.text) });
      judge.take(isAsExpected(it, one), `${folder}/${cases}: ${one.name}`, it);
    }
  }
}

function main([file]) {
  if (!file) {
    console.log("tools/page_rows.js MODULE");
    return 1;
  }
  const module = new WebAssembly.Module(fs.readFileSync(file)), began = performance.now();
  const judges = [["rows", rows], ["cases", tables]].map(([what, over]) => {
    const judge = new Judge();
    over(module, judge);
    console.log(`${what}: ${judge.good} as expected, ${judge.bad} not`);
    return judge;
  });
  console.log(`${((performance.now() - began) / 1000).toFixed(0)} s`);
  return judges.some((it) => it.bad) ? 1 : 0;
}

process.exitCode = main(process.argv.slice(2));
