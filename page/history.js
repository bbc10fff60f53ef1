// A run's history, made of the lines of a trace: what held after each line. Nothing is computed of the machine: a value is the
// last that a line has told.
"use strict";
(function (dsmon) {
  // What lines told of one thing, in their order.
  class Changes {
    constructor() {
      this.lines = [];
      this.values = [];
    }

    add(line, value) {
      this.lines.push(line);
      this.values.push(value);
    }

    // What was told last, up to and with this line.
    at(line) { return this.values[last(this.lines, line)]; }
  }

  // The greatest index whose number is at most this one, or -1. The numbers never fall.
  function last(numbers, most) {
    let low = -1, high = numbers.length;
    while (high - low > 1) {
      const middle = (low + high) >> 1;
      if (numbers[middle] <= most) low = middle; else high = middle;
    }
    return low;
  }

  // Which lines were asked for, by the flags of a trace: between which times, of which processes (an empty list: of all), and
  // whether lines tell who runs and how each process stands.
  function askedBy(flags) {
    const numbers = (flag) => [...flags.matchAll(new RegExp(`--${flag}[ =](\\d+)`, "g"))].map((it) => +it[1]);
    const only = /--only[ =](\w+)/.exec(flags)?.[1];
    return { from: numbers("from")[0] ?? 0, to: numbers("to")[0] ?? Infinity, processes: numbers("process"), tellsStates: !only || only === "switches" };
  }

  // The console line of each process, as a policy mostly writes it, or an empty list.
  function consolesOf(policy) {
    const text = policy.replace(/#.*$/gm, ""), tables = text.split(/^\s*\[\[/m).filter((it) => it.startsWith("process]]"));
    const array = /^\s*process\s*=\s*\[([^\]]*)\]/m.exec(text);
    const parts = tables.length ? tables : array ? array[1].match(/\{[^}]*\}/g) ?? [] : [];
    return parts.map((it) => +(/\bline\s*=\s*(\d)/.exec(it)?.[1] ?? -1));
  }

  class History {
    // Of what `readTrace` and `readCheck` found, with the flags of the trace and the text of the policy.
    constructor(trace, explained, flags = "", policy = "") {
      Object.assign(this, { trace, explained, events: trace.events, entries: new Map(), states: new Map(), registers: new Map(), units: new Map(), refusals: new Map() });
      this.running = new Changes();
      this.lastUnit = new Changes();
      this.pageNames = new Map();
      const asked = askedBy(flags), latest = this.events.length ? this.events[this.events.length - 1].time : 0;
      const end = trace.left ? latest : +(trace.time ?? latest);
      this.from = Math.min(asked.from, end);
      this.to = Math.max(this.from + 1, Math.min(asked.to, end));
      this.processes = Array.from({ length: explained.processes }, (_, k) => k + 1).filter((it) => !asked.processes.length || asked.processes.includes(it));
      if (!asked.from && asked.tellsStates) this.begin();
      this.events.forEach((it, index) => this.take(it, index));
      this.stops = this.stopsOf();
      // The line up to which the first table stands.
      this.firstLine = this.events[0]?.kind === "entry" ? this.eventAt(0).line : -1;
      this.consoles = consolesOf(policy);
      this.consolesGrow = !flags && this.consolesAgree();
    }

    // At time 0 all are ready, and who has the first unit runs.
    begin() {
      for (const process of this.processes) this.of(this.states, process).add(-1, { time: 0, state: "ready" });
      this.running.add(-1, { time: 0, process: this.events.find((it) => it.at)?.process ?? 1 });
    }

    of(map, key) {
      if (!map.has(key)) map.set(key, new Changes());
      return map.get(key);
    }

    take(event, index) {
      const { kind, line, time, process } = event;
      if (kind === "entry") {
        this.of(this.entries, `${process} ${event.address}`).add(line, event);
        this.nameOf(event);
      } else if (kind === "refused") this.refusals.set(event.command, event.reason);
      else if (kind === "stands") this.of(this.states, process).add(line, { time, state: event.state });
      else if (kind === "runs") this.running.add(line, { time, process });
      else if (event.at) {
        this.of(this.units, process).add(line, event);
        this.lastUnit.add(line, event);
        if (event.register) this.of(this.registers, `${process} ${event.register}`).add(line, { value: event.value, line });
      }
    }

    // The name of the page that an entry is over: `check` has it by the entry's rule. A page past those of the policy is a copy.
    nameOf({ page, rule }) {
      if (!page) return "";
      const name = this.explained.names.get(rule) ?? `page ${page}`;
      if (page > this.explained.pages && this.explained.pages) return `copy ${page} of ${name}`;
      if (!this.pageNames.has(page)) this.pageNames.set(page, name);
      return this.pageNames.get(page);
    }

    // Where one can stop: at each line that tells something, and once for the entries that change together.
    stopsOf() {
      const stops = [];
      this.events.forEach((it, index) => {
        const next = this.events[index + 1];
        if (it.kind !== "entry" || !next || next.kind !== "entry" || next.time !== it.time) stops.push(index);
      });
      return stops;
    }

    eventAt(stop) { return this.events[this.stops[stop]]; }

    // The events of a stop: one, or all the entries that change together.
    groupAt(stop) { return this.events.slice((this.stops[stop - 1] ?? -1) + 1, (this.stops[stop] ?? -1) + 1); }

    // The last stop at this time or before.
    stopAtTime(time) { return Math.max(0, last(this.stops.map((it) => this.events[it].time), time)); }

    // The stop that has this line of the text, or the next after it.
    stopAtLine(line) {
      const found = this.stops.findIndex((it) => this.events[it].line >= line);
      return found < 0 ? Math.max(0, this.stops.length - 1) : found;
    }

    // What each process may touch after a line: the entries that stand then.
    entriesAt(line) {
      return [...this.entries.values()].map((it) => it.at(line)).filter((it) => it && it.right !== "gone");
    }

    // When the right of an entry ended by itself, where the line before had said when it would; else 0.
    endOf(entry) {
      const before = this.entries.get(`${entry.process} ${entry.address}`).at(entry.line - 1);
      return entry.right === "none" && before?.until && before.until <= entry.time ? before.until : 0;
    }

    // What a line last told of the entry that decided a denial: also when its right ended, whether a command had narrowed it, and
    // whether it stood so from the first on.
    deciding(event) {
      const changes = this.entries.get(`${event.process} ${dsmon.pageOf(event.address)}`), entry = changes?.at(event.line);
      if (!entry) return null;
      const before = changes.at(entry.line - 1), isNarrowed = before?.right === "write" && entry.right === "read" && before.rule === entry.rule && before.page === entry.page;
      return { ...entry, ended: this.endOf(entry), isNarrowed, isFirst: entry.line <= this.firstLine };
    }

    stateAt(process, line) { return this.states.get(process)?.at(line)?.state ?? ""; }
    runningAt(line) { return this.running.at(line)?.process ?? 0; }
    unitAt(line) { return this.lastUnit.at(line); }

    // Each register of a process of which a line has told, and whether it was this line.
    registersAt(process, line) {
      const found = [];
      for (let number = 1; number < 32; number += 1) {
        const it = this.registers.get(`${process} ${number}`)?.at(line);
        if (it) found.push({ number, value: it.value, isNew: it.line === line });
      }
      return found;
    }

    // Where the instruction of a stop stands; of a stop that has none, the last one before.
    placeAt(stop) {
      const event = this.eventAt(stop), unit = event?.at ? event : event && this.unitAt(event.line);
      return unit ? this.placeOf(unit.process, unit.at, unit.line) : null;
    }

    // Where the bytes of an address of a process come from: the source, and the place in its image.
    placeOf(process, address, line) {
      const number = parseInt(address, 16), page = dsmon.pageOf(address);
      const entry = this.entries.get(`${process} ${page}`)?.at(line), part = entry && this.explained.parts.get(this.nameOf(entry));
      return part ? { source: part.source, at: part.part * dsmon.PAGE + number % dsmon.PAGE } : null;
    }

    // What is on the consoles after a line, by the characters that were put.
    consolesAt(line) {
      const texts = ["", "", "", ""];
      for (const it of this.events) {
        if (it.line > line) break;
        if (it.name === "put" && it.answer) texts[this.consoles[it.process - 1]] += String.fromCharCode(parseInt(it.words[0], 16));
      }
      return texts;
    }

    // Whether that comes to what the run says at its end.
    consolesAgree() {
      if (this.consoles.length !== this.explained.processes || this.trace.consoles.length !== 4 || this.trace.left) return false;
      const texts = this.consolesAt(Infinity);
      return this.trace.consoles.every((it, k) => it === texts[k]);
    }
  }

  // The address of the page in which an address lies.
  dsmon.pageOf = (address) => address.slice(0, 5) + "000";
  Object.assign(dsmon, { Changes, History, last, askedBy, consolesOf });
})(globalThis.dsmon ||= {});
