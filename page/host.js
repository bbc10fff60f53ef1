// The system that the program runs on in a page: words, files in memory, two streams and a heap, by eleven functions.
// It stands where the C library and Linux stand for the native program, and like them it is trusted and not proved.
"use strict";
(function (dsmon) {
  // Numbers of errors, as Linux has them.
  const NO_SUCH_FILE = 2, BAD_DESCRIPTOR = 9, NOT_ALLOWED = 13, NO_SPACE = 28;
  const ACCESS_BITS = 3;
  // What Linux says of a file by its name: where the mode stands, and the mode of a file that is to be read.
  const MODE_AT = 28, FILE_MODE = 0o100444;
  const FIRST_FILE = 3;
  const MEBIBYTE = 1 << 20;
  // How far a run may go: bytes of memory, and bytes of text on standard output.
  const LIMITS = { memory: 512 * MEBIBYTE, text: 16 * MEBIBYTE };
  const WASM_PAGE = 65536;
  const HEAD = 16;
  const encoder = new TextEncoder();

  // A heap above the module's constants. Blocks have 16 bytes times a power of two, or one and a half times that, after a
  // head that holds the number of their size. A block that is given back waits for the next that asks for its size.
  class Heap {
    constructor(memory, base, most) {
      this.memory = memory;
      this.most = most;
      this.next = Math.ceil(base / HEAD) * HEAD;
      this.free = [];
      // The grown memory's measure is a number, or a big integer where its addresses have 64 bits.
      this.measure = Number;
      try { memory.grow(0); } catch { this.measure = BigInt; }
    }

    static size(kind) {
      const power = 16 * 2 ** (kind >> 1);
      return kind % 2 ? Math.ceil(power * 1.5 / HEAD) * HEAD : power;
    }

    static kindFor(bytes) {
      let kind = 0;
      while (Heap.size(kind) < bytes) kind += 1;
      return kind;
    }

    heads() { return new DataView(this.memory.buffer); }
    kindAt(block) { return this.heads().getUint32(block - HEAD, true); }
    room(block) { return Heap.size(this.kindAt(block)); }

    // A block of at least so many bytes, or 0 where there is no room.
    take(bytes) {
      const kind = Heap.kindFor(bytes), waiting = this.free[kind];
      if (waiting && waiting.length) return waiting.pop();
      const block = this.next + HEAD, end = block + Heap.size(kind);
      if (!this.reaches(end)) return 0;
      this.next = end;
      this.heads().setUint32(block - HEAD, kind, true);
      return block;
    }

    // Whether memory goes up to here, if need be after it has grown.
    reaches(end) {
      const has = this.memory.buffer.byteLength;
      if (end <= has) return true;
      if (end > this.most) return false;
      const wanted = Math.min(this.most, Math.max(end, has * 1.25));
      try {
        this.memory.grow(this.measure(Math.ceil((wanted - has) / WASM_PAGE)));
      } catch {
        return false;
      }
      return true;
    }

    give(block) { (this.free[this.kindAt(block)] ||= []).push(block); }
  }

  // What a program asks of the world. `words` are its words, `files` maps names to texts or bytes.
  class Host {
    constructor(words, files, limits = {}) {
      this.words = words.map((it) => encoder.encode(it));
      this.files = files;
      this.limits = { ...LIMITS, ...limits };
      this.descriptors = new Map();
      this.nextDescriptor = FIRST_FILE;
      this.error = 0;
      this.out = [];
      this.err = [];
      this.written = 0;
    }

    // After the module has been made, with what it exports.
    begin(memory, base) {
      this.memory = memory;
      this.heap = new Heap(memory, base, this.limits.memory);
    }

    // A view is made anew each time: after memory has grown an old one is empty.
    bytes(at, length) { return new Uint8Array(this.memory.buffer, Number(at), Number(length)); }

    fail(error) {
      this.error = error;
      return -1;
    }

    // Writes what an allocation answers: whether there is a block, and the block.
    answer(at, block) {
      const view = new DataView(this.memory.buffer);
      view.setBigUint64(Number(at), block ? 1n : 0n, true);
      view.setBigUint64(Number(at) + 8, BigInt(block), true);
    }

    allocate(answer, length) { this.answer(answer, this.heap.take(Number(length))); }

    reallocate(answer, old, kept, length) {
      const from = Number(old), wanted = Number(length);
      if (this.heap.room(from) >= wanted) return this.answer(answer, from);
      const block = this.heap.take(wanted);
      if (block) {
        this.bytes(block, kept).set(this.bytes(from, kept));
        this.heap.give(from);
      }
      this.answer(answer, block);
    }

    release(block) { this.heap.give(Number(block)); }

    word(number, at, length) {
      const word = this.words[Number(number)];
      if (!word) return -1;
      this.bytes(at, length).set(word.subarray(0, Number(length)));
      return word.length <= Number(length) ? word.length : -2;
    }

    nameAt(at) {
      const all = new Uint8Array(this.memory.buffer, Number(at));
      return new TextDecoder().decode(all.slice(0, all.indexOf(0)));
    }

    open(path, flags) {
      const name = this.nameAt(path);
      if (flags & ACCESS_BITS) return this.fail(NOT_ALLOWED);
      if (!Object.hasOwn(this.files, name)) return this.fail(NO_SUCH_FILE);
      const text = this.files[name];
      this.descriptors.set(this.nextDescriptor, { bytes: typeof text === "string" ? encoder.encode(text) : text, at: 0 });
      return this.nextDescriptor++;
    }

    // Each name is that of a file, and of no link, folder or device.
    statx(path, found) {
      if (!Object.hasOwn(this.files, this.nameAt(path))) return this.fail(NO_SUCH_FILE);
      new DataView(this.memory.buffer).setUint16(Number(found) + MODE_AT, FILE_MODE, true);
      return 0;
    }

    read(descriptor, at, length) {
      const file = this.descriptors.get(descriptor);
      if (!file) return this.fail(BAD_DESCRIPTOR);
      const part = file.bytes.subarray(file.at, file.at + Number(length));
      this.bytes(at, part.length).set(part);
      file.at += part.length;
      return part.length;
    }

    close(descriptor) { return this.descriptors.delete(descriptor) ? 0 : this.fail(BAD_DESCRIPTOR); }

    // Only standard output has a limit, so that the reason why it was cut short is told.
    write(descriptor, at, length) {
      const stream = { 1: this.out, 2: this.err }[descriptor];
      if (!stream) return this.fail(BAD_DESCRIPTOR);
      if (descriptor === 1 && this.written + Number(length) > this.limits.text) return this.fail(NO_SPACE);
      if (descriptor === 1) this.written += Number(length);
      stream.push(this.bytes(at, length).slice());
      return Number(length);
    }

    // The eleven functions by the names that the module imports. Where C has a long, the module has a big integer.
    imports() {
      return {
        rattle_alloc: (answer, length) => this.allocate(answer, length),
        rattle_realloc: (answer, old, kept, length) => this.reallocate(answer, old, kept, length),
        rattle_dealloc: (block) => this.release(block),
        rattle_arg: (number, at, length) => BigInt(this.word(number, at, length)),
        rattle_errno: () => this.error,
        rattle_set_errno: (error) => { this.error = error; },
        open: (path, flags) => this.open(path, flags),
        statx: (folder, path, flags, mask, found) => this.statx(path, found),
        close: (descriptor) => this.close(descriptor),
        read: (descriptor, at, length) => BigInt(this.read(descriptor, at, length)),
        write: (descriptor, at, length) => BigInt(this.write(descriptor, at, length)),
      };
    }
  }

  function joined(parts) {
    const all = new Uint8Array(parts.reduce((length, it) => length + it.length, 0));
    let at = 0;
    for (const it of parts) {
      all.set(it, at);
      at += it.length;
    }
    return all;
  }

  // Runs the program once, in an instance of its own, so that nothing is left of a run before. Both texts are bytes.
  function run(module, words, files, limits) {
    const host = new Host(["dsmon", ...words], files, limits), env = host.imports();
    const lacks = WebAssembly.Module.imports(module).map((it) => it.name).filter((it) => !Object.hasOwn(env, it));
    if (lacks.length) throw new Error(`the module asks for more than the host has: ${lacks.join(" ")}`);
    const made = new WebAssembly.Instance(module, { env });
    host.begin(made.exports.memory, Number(made.exports.__heap_base.value));
    const status = made.exports.start();
    return { status, out: joined(host.out), err: joined(host.err), memory: host.memory.buffer.byteLength };
  }

  Object.assign(dsmon, { Heap, Host, LIMITS, run });
})(globalThis.dsmon ||= {});
