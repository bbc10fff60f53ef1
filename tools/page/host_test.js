// Tests of page/host.js: each of the eleven functions with its errors, the heap, and a whole run of a module made by hand.
"use strict";
const { test } = require("node:test");
const assert = require("node:assert");
require("../../page/host.js");

const { Heap, Host, run } = globalThis.dsmon;
const WASM_PAGE = 65536, BASE = 1000, PLACE = 64, ANSWER = 16;
const NO_SUCH_FILE = 2, BAD_DESCRIPTOR = 9, NOT_ALLOWED = 13, NO_SPACE = 28;

function made({ words = ["dsmon", "run"], files = {}, limits = {}, pages = 1 } = {}) {
  const host = new Host(words, files, limits), memory = new WebAssembly.Memory({ initial: pages });
  host.begin(memory, BASE);
  const put = (at, text) => new Uint8Array(memory.buffer).set(new TextEncoder().encode(text), at);
  const got = (at, length) => new TextDecoder().decode(new Uint8Array(memory.buffer, at, length).slice());
  const answered = () => {
    const view = new DataView(memory.buffer);
    return [view.getBigUint64(ANSWER, true), Number(view.getBigUint64(ANSWER + 8, true))];
  };
  return { host, memory, env: host.imports(), put, got, answered };
}

test("the host has the eleven functions and no other", () => {
  const names = "close open rattle_alloc rattle_arg rattle_dealloc rattle_errno rattle_realloc rattle_set_errno read statx write";
  assert.equal(Object.keys(made().env).sort().join(" "), names);
});

test("rattle_alloc gives blocks that do not overlap, above the base and at multiples of 16", () => {
  const { env, answered } = made();
  let end = BASE;
  for (const length of [1, 16, 17, 100, 5000]) {
    env.rattle_alloc(BigInt(ANSWER), BigInt(length), 16n);
    const [is, block] = answered();
    assert.equal(is, 1n);
    assert.equal(block % 16, 0);
    assert.ok(block >= end, `${block} is before ${end}`);
    end = block + length;
  }
});

test("rattle_alloc answers nothing where the heap is full, and memory grows until then", () => {
  const { env, memory, answered } = made({ limits: { memory: 4 * WASM_PAGE } });
  env.rattle_alloc(BigInt(ANSWER), BigInt(2 * WASM_PAGE), 16n);
  assert.equal(answered()[0], 1n);
  assert.ok(memory.buffer.byteLength > 2 * WASM_PAGE);
  env.rattle_alloc(BigInt(ANSWER), BigInt(4 * WASM_PAGE), 16n);
  assert.deepEqual(answered(), [0n, 0]);
  env.rattle_alloc(BigInt(ANSWER), 32n, 16n);
  assert.equal(answered()[0], 1n, "a small block still has room");
});

test("rattle_alloc answers nothing where the engine gives no more memory", () => {
  const host = new Host([], {}), memory = new WebAssembly.Memory({ initial: 1, maximum: 1 });
  host.begin(memory, BASE);
  host.allocate(ANSWER, 2 * WASM_PAGE);
  assert.equal(new DataView(memory.buffer).getBigUint64(ANSWER, true), 0n);
});

test("rattle_realloc keeps what was there, in the same block where that has room", () => {
  const { env, put, got, answered } = made();
  env.rattle_alloc(BigInt(ANSWER), 20n, 1n);
  const [, block] = answered();
  put(block, "what is kept");
  env.rattle_realloc(BigInt(ANSWER), BigInt(block), 12n, 24n, 1n);
  assert.deepEqual(answered(), [1n, block]);
  env.rattle_realloc(BigInt(ANSWER), BigInt(block), 12n, 4000n, 1n);
  const [is, other] = answered();
  assert.equal(is, 1n);
  assert.notEqual(other, block);
  assert.equal(got(other, 12), "what is kept");
  env.rattle_alloc(BigInt(ANSWER), 20n, 1n);
  assert.equal(answered()[1], block, "the old block is free again");
});

test("rattle_realloc answers nothing where the heap is full, and the old block stays", () => {
  const { env, put, got, answered } = made({ limits: { memory: WASM_PAGE } });
  env.rattle_alloc(BigInt(ANSWER), 16n, 1n);
  const [, block] = answered();
  put(block, "kept");
  env.rattle_realloc(BigInt(ANSWER), BigInt(block), 4n, BigInt(2 * WASM_PAGE), 1n);
  assert.deepEqual(answered(), [0n, 0]);
  assert.equal(got(block, 4), "kept");
  env.rattle_alloc(BigInt(ANSWER), 16n, 1n);
  assert.notEqual(answered()[1], block, "it is still in use");
});

test("rattle_dealloc makes a block free for the next of its size", () => {
  const { env, answered } = made();
  env.rattle_alloc(BigInt(ANSWER), 100n, 1n);
  const [, block] = answered();
  env.rattle_dealloc(BigInt(block));
  env.rattle_alloc(BigInt(ANSWER), 10n, 1n);
  assert.notEqual(answered()[1], block, "another size");
  env.rattle_alloc(BigInt(ANSWER), 100n, 1n);
  assert.equal(answered()[1], block);
});

test("blocks have at least the size that was asked for, and at most one and a half times it past the smallest", () => {
  for (let bytes = 0; bytes < 5000; bytes += 7) {
    const size = Heap.size(Heap.kindFor(bytes));
    assert.ok(size >= bytes && size % 16 === 0 && (bytes <= 48 || size < bytes * 1.6), `${bytes}: ${size}`);
  }
});

test("rattle_arg answers a word, -1 where there is none, and -2 where it does not fit", () => {
  const { env, got } = made({ words: ["dsmon", "trace", "größer"] });
  assert.equal(env.rattle_arg(1n, BigInt(PLACE), 100n), 5n);
  assert.equal(got(PLACE, 5), "trace");
  assert.equal(env.rattle_arg(2n, BigInt(PLACE), 100n), 8n);
  assert.equal(got(PLACE, 8), "größer");
  assert.equal(env.rattle_arg(1n, BigInt(PLACE), 5n), 5n);
  assert.equal(env.rattle_arg(1n, BigInt(PLACE), 4n), -2n);
  assert.equal(got(PLACE, 4), "trac");
  assert.equal(env.rattle_arg(3n, BigInt(PLACE), 100n), -1n);
});

test("rattle_errno answers what rattle_set_errno set", () => {
  const { env } = made();
  assert.equal(env.rattle_errno(), 0);
  env.rattle_set_errno(7);
  assert.equal(env.rattle_errno(), 7);
});

test("open finds a file by its name; else the answer is -1, with the reason", () => {
  const { env, put } = made({ files: { "one.s": "nop\n", toString: "a text" } });
  put(PLACE, "one.s\0");
  const first = env.open(BigInt(PLACE), 0), second = env.open(BigInt(PLACE), 0o2000000);
  assert.ok(first >= 3 && second > first);
  put(PLACE, "toString\0");
  assert.ok(env.open(BigInt(PLACE), 0) > second);
  for (const name of ["two.s", "one.s ", "valueOf", "__proto__", ""]) {
    put(PLACE, `${name}\0`);
    env.rattle_set_errno(0);
    assert.equal(env.open(BigInt(PLACE), 0), -1, name);
    assert.equal(env.rattle_errno(), NO_SUCH_FILE);
  }
});

test("statx says of the name of a file that it is one; else the answer is -1, with the reason", () => {
  const { memory, env, put } = made({ files: { "one.s": "nop\n" } });
  put(PLACE, "one.s\0");
  assert.equal(env.statx(-100, BigInt(PLACE), 0, 0xFFF, 200n), 0);
  assert.equal(new DataView(memory.buffer).getUint16(228, true) & 0o170000, 0o100000);
  for (const name of ["two.s", "valueOf", ""]) {
    put(PLACE, `${name}\0`);
    env.rattle_set_errno(0);
    assert.equal(env.statx(-100, BigInt(PLACE), 0x100, 0xFFF, 200n), -1, name);
    assert.equal(env.rattle_errno(), NO_SUCH_FILE);
  }
});

test("open refuses to open for writing", () => {
  const { env, put } = made({ files: { "one.s": "nop\n" } });
  put(PLACE, "one.s\0");
  for (const flags of [1, 2]) {
    assert.equal(env.open(BigInt(PLACE), flags), -1);
    assert.equal(env.rattle_errno(), NOT_ALLOWED);
  }
});

test("read answers the bytes of a file piece by piece, and 0 at its end", () => {
  const { env, put, got } = made({ files: { text: "abcdefg", bytes: new Uint8Array([1, 2, 3]), none: "" } });
  put(PLACE, "text\0");
  const text = env.open(BigInt(PLACE), 0), again = env.open(BigInt(PLACE), 0);
  assert.equal(env.read(text, 200n, 4n), 4n);
  assert.equal(got(200, 4), "abcd");
  assert.equal(env.read(text, 200n, 4n), 3n);
  assert.equal(got(200, 3), "efg");
  assert.equal(env.read(text, 200n, 4n), 0n);
  assert.equal(env.read(again, 200n, 1n), 1n, "each has its own place");
  put(PLACE, "bytes\0");
  assert.equal(env.read(env.open(BigInt(PLACE), 0), 200n, 100n), 3n);
  put(PLACE, "none\0");
  assert.equal(env.read(env.open(BigInt(PLACE), 0), 200n, 100n), 0n);
});

test("read and close of a descriptor that is not open answer -1, with the reason", () => {
  const { env, put } = made({ files: { text: "abc" } });
  for (const descriptor of [0, 1, 2, 3, -1]) {
    env.rattle_set_errno(0);
    assert.equal(env.read(descriptor, 200n, 4n), -1n);
    assert.equal(env.rattle_errno(), BAD_DESCRIPTOR);
    env.rattle_set_errno(0);
    assert.equal(env.close(descriptor), -1);
    assert.equal(env.rattle_errno(), BAD_DESCRIPTOR);
  }
  put(PLACE, "text\0");
  const text = env.open(BigInt(PLACE), 0);
  assert.equal(env.close(text), 0);
  assert.equal(env.close(text), -1);
  assert.equal(env.read(text, 200n, 4n), -1n);
});

test("write goes to both streams, whole, and to no other descriptor", () => {
  const { host, env, put } = made();
  put(PLACE, "out and err");
  assert.equal(env.write(1, BigInt(PLACE), 3n), 3n);
  assert.equal(env.write(1, BigInt(PLACE + 3), 4n), 4n);
  assert.equal(env.write(2, BigInt(PLACE + 8), 3n), 3n);
  put(PLACE, "changed");
  assert.equal(host.out.map((it) => Buffer.from(it)).join(""), "out and");
  assert.equal(host.err.map((it) => Buffer.from(it)).join(""), "err");
  for (const descriptor of [0, 3, -1]) {
    assert.equal(env.write(descriptor, BigInt(PLACE), 3n), -1n);
    assert.equal(env.rattle_errno(), BAD_DESCRIPTOR);
  }
});

test("write to standard output fails past its limit, and the reason still reaches the other stream", () => {
  const { env } = made({ limits: { text: 10 } });
  assert.equal(env.write(1, BigInt(PLACE), 10n), 10n);
  assert.equal(env.write(1, BigInt(PLACE), 1n), -1n);
  assert.equal(env.rattle_errno(), NO_SPACE);
  assert.equal(env.write(1, BigInt(PLACE), 0n), 0n);
  assert.equal(env.write(2, BigInt(PLACE), 100n), 100n);
});

// A module of one memory, a global `__heap_base` and a function `start` that answers a status; perhaps with an import.
function moduleBytes(status, name) {
  const text = (it) => [it.length, ...Buffer.from(it)], section = (number, ...bytes) => [number, bytes.length, ...bytes];
  const imports = name ? section(2, 1, ...text("env"), ...text(name), 0, 0) : [];
  const exported = section(7, 3, ...text("memory"), 2, 0, ...text("start"), 0, name ? 1 : 0, ...text("__heap_base"), 3, 0);
  return new Uint8Array([0, 0x61, 0x73, 0x6d, 1, 0, 0, 0, ...section(1, 1, 0x60, 0, 1, 0x7f), ...imports, ...section(3, 1, 0), ...section(5, 1, 0, 1),
    ...section(6, 1, 0x7f, 0, 0x41, 16, 0x0b), ...exported, ...section(10, 1, 4, 0, 0x41, status, 0x0b)]);
}

test("a run answers the status and both texts", () => {
  const answer = run(new WebAssembly.Module(moduleBytes(3)), ["run"], {});
  assert.deepEqual([answer.status, answer.out.length, answer.err.length, answer.memory], [3, 0, 0, WASM_PAGE]);
});

test("a module that asks for more than the ten functions is refused", () => {
  assert.doesNotThrow(() => run(new WebAssembly.Module(moduleBytes(0, "rattle_errno")), [], {}));
  for (const name of ["socket", "toString"]) assert.throws(() => run(new WebAssembly.Module(moduleBytes(0, name)), [], {}), new RegExp(name));
});
