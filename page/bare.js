// Reads what `dsmon bare` writes, as a history by instructions: what each did, and what then held.
"use strict";
(function (dsmon) {
  const LINE = /^(\d+) ([0-9A-F]{8}) ([^;]*)((?:; [^;]*)*)$/;
  const SLOT = /^slot (\d+) ([0-9A-F]{8}) asid (\d+) frame ([0-9A-F]{8})((?: [NDVG])*)$/;
  const STORED = /^([0-9A-F]{8}) holds ([0-9A-F]{8})$/;
  const EXCEPTION = /^exception (\d+) (\w+) at ([0-9A-F]{8})$/;
  const LATE = /^(\$\d+) is late$/;
  const CHANGED = /^(\$\d+|[A-Z]\w+) ([0-9A-F]{8})$/;
  const KSEG0 = 0x80000000, KSEG2 = 0xc0000000, PHYSICAL = 0x1fffffff;
  const IMAGE = 0x00400000;
  const HANDLER_END = 0x80000080;

  function partOf(text) {
    let it;
    if ((it = SLOT.exec(text))) return { kind: "slot", slot: +it[1], page: it[2], space: +it[3], frame: it[4], bits: it[5].trim() };
    if ((it = STORED.exec(text))) return { kind: "stored", address: it[1], value: it[2] };
    if ((it = EXCEPTION.exec(text))) return { kind: "exception", code: +it[1], name: it[2], vector: it[3] };
    if ((it = LATE.exec(text))) return { kind: "late", name: it[1] };
    if ((it = CHANGED.exec(text))) return { kind: "changed", name: it[1], value: it[2] };
    return { kind: "other", text };
  }

  // The whole text: its lines, an event for each instruction, how it ended, and what each console line sent.
  function readBare(text, most = Infinity) {
    const lines = text.split("\n"), events = [];
    let number = 0;
    for (; number < lines.length && number < most; number += 1) {
      const it = LINE.exec(lines[number]);
      if (!it) break;
      events.push({ kind: "instruction", time: +it[1], at: it[2], instruction: it[3], parts: it[4].split("; ").slice(1).map(partOf), line: number });
    }
    const sent = [...text.matchAll(/^sent \d ?([0-9A-F]*)$/gm)].map((it) => it[1].replace(/../g, (byte) => String.fromCharCode(parseInt(byte, 16))));
    return { lines, events, left: number === most && number < lines.length, ending: /^end after .*$/m.exec(text)?.[0] ?? "", consoles: sent };
  }

  // Where an instruction stands: in the handler of misses, elsewhere in the kernel's half, or in the user's.
  function standsIn(at) {
    const number = parseInt(at, 16);
    return number < KSEG0 ? "user" : number < HANDLER_END ? "refill" : "kernel";
  }

  class BareHistory {
    constructor(bare, source) {
      Object.assign(this, { trace: bare, source, events: bare.events, slots: new Map(), registers: new Map() });
      this.from = bare.events[0]?.time ?? 0;
      this.to = (bare.events[bare.events.length - 1]?.time ?? 0) + 1;
      this.stops = bare.events.map((_, index) => index);
      for (const event of bare.events) for (const part of event.parts) this.take(event, part);
    }

    take(event, part) {
      if (part.kind !== "slot" && part.kind !== "changed") return;
      const map = part.kind === "slot" ? this.slots : this.registers, key = part.kind === "slot" ? part.slot : part.name;
      if (!map.has(key)) map.set(key, new dsmon.Changes());
      map.get(key).add(event.line, { ...part, time: event.time + 1, line: event.line });
    }

    eventAt(stop) { return this.events[stop]; }
    stopAtTime(time) { return Math.max(0, dsmon.last(this.events.map((it) => it.time), time)); }
    stopAtLine(line) { return Math.min(line, Math.max(0, this.events.length - 1)); }

    registersAt(line) {
      const found = [...this.registers].map(([name, it]) => ({ name, told: it.at(line) })).filter((it) => it.told);
      return found.map(({ name, told }) => ({ name, value: told.value, isNew: told.line === line }));
    }

    // What the buffer's slots have after a line, as far as lines have told.
    slotsAt(line) {
      return [...this.slots.values()].map((it) => it.at(line)).filter(Boolean).sort((one, other) => one.slot - other.slot);
    }

    // The place in the image of the instruction of a stop, where it is there.
    placeAt(stop) {
      const event = this.events[stop], at = event ? this.physical(event.at, event.line) - IMAGE : -1;
      return at >= 0 ? { source: this.source, at } : null;
    }

    // Where an address lies in memory, by the slots that lines have told; -1 where that is not known.
    physical(address, line) {
      const number = parseInt(address, 16);
      if (number >= KSEG0 && number < KSEG2) return (number & PHYSICAL) >>> 0;
      const slots = this.slotsAt(line).filter((it) => it.page === dsmon.pageOf(address) && it.bits.includes("V"));
      return slots.length === 1 ? parseInt(slots[0].frame, 16) + number % dsmon.PAGE : -1;
    }
  }

  const slotTold = (it) => `${it.page} asid ${it.space} frame ${it.frame} ${it.bits}`.trim();

  // Bars of where the instructions stand, one for each row of them that stand in the same.
  function placeBars(events) {
    const bars = [];
    for (const it of events) {
      const kind = standsIn(it.at), before = bars[bars.length - 1];
      if (before && before.kind === kind) before.to = it.time + 1;
      else bars.push({ kind, from: it.time, to: it.time + 1, line: it.line, told: { user: "the user's half", refill: "the handler at 80000000", kernel: "the kernel's half" }[kind] });
    }
    return bars;
  }

  function slotLane(history, [number, changes]) {
    const kind = (it) => (!it.bits.includes("V") ? "none" : it.bits.includes("D") ? "write" : "read");
    const bars = changes.values.map((it, k) => ({ kind: kind(it), from: it.time, to: changes.values[k + 1]?.time ?? history.to, line: it.line, told: slotTold(it) }));
    const marks = changes.values.map((it) => ({ kind: "writes", time: it.time - 0.5, line: it.line, told: `slot ${number}: ${slotTold(it)}`, label: it.page }));
    return { title: `slot ${number}`, detail: slotTold(changes.values[changes.values.length - 1]), bars, marks };
  }

  // The lanes of a run of the bare machine: where it is, its exceptions, the buffer's slots, and the memory that is stored to.
  function bareLanes(history) {
    const exceptions = [], stores = new Map();
    for (const event of history.events) for (const it of event.parts) {
      const mark = { time: event.time + 0.5, line: event.line };
      if (it.kind === "exception") exceptions.push({ ...mark, kind: "exception", told: `exception ${it.code} ${it.name} at ${it.vector}`, label: `${it.code} ${it.name}` });
      if (it.kind === "stored") {
        const page = dsmon.pageOf(it.address);
        stores.set(page, [...(stores.get(page) ?? []), { ...mark, kind: "store", told: `${it.address} then holds ${it.value}` }]);
      }
    }
    const group = (title, lanes, bars = []) => ({ title, bars, marks: [], lanes });
    const lane = (title, detail, marks) => ({ title, detail, bars: [], marks });
    const slots = [...history.slots].sort((one, other) => one[0] - other[0]).map((it) => slotLane(history, it));
    const memory = [...stores].sort().map(([page, marks]) => lane(page, "memory", marks));
    const processor = group("processor", [lane("exceptions", "", exceptions)], placeBars(history.events));
    return { from: history.from, to: history.to, groups: [processor, ...(slots.length ? [group("buffer", slots)] : []), ...(memory.length ? [group("stores", memory)] : [])] };
  }

  // What an instruction did, as sentences.
  function bareTold(history, stop) {
    const event = history.eventAt(stop);
    if (!event) return history.trace.ending;
    const first = (it) => (it.kind === "exception" ? 0 : 1), parts = [...event.parts].sort((one, other) => first(one) - first(other));
    const sentences = parts.map((it) => ({
      slot: () => `It writes slot ${it.slot} of the buffer: ${slotTold(it)}.`,
      stored: () => `The word at ${it.address} then holds ${it.value}.`,
      exception: () => `It enters exception ${it.code}, ${it.name}, at ${it.vector}, and is not done.`,
      late: () => `Its load of ${it.name} is late: the next instruction still reads the old value.`,
      changed: () => `${it.name} then holds ${it.value}.`,
      other: () => `${it.text}.`,
    })[it.kind]());
    const ending = stop === history.stops.length - 1 ? ` ${history.trace.ending}.` : "";
    return `Instruction ${event.time}, at ${event.at}: \`${event.instruction}\`. ${sentences.join(" ")}${ending}`;
  }

  Object.assign(dsmon, { readBare, BareHistory, bareLanes, bareTold, slotTold });
})(globalThis.dsmon ||= {});
