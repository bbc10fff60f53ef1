// Reads what `dsmon trace --entries` writes: each line of what happened, and what the run wrote at its end.
"use strict";
(function (dsmon) {
  // What happened ends where one of these begins.
  const END = /^(processor instructions |entries at |entry |from \d+ units |time \d+$|console 0 \d+$)/;
  const ENTRY = /^(\d+) entry (\d+) ([0-9A-F]{8}) (read|write|none|gone)(.*)$/;
  const ENTRY_REST = /^(?: page (\d+))?(?: rule (\d+))?(?: until (\d+))?( give)?(?: giver (\d+))?(?: parent (\d+) ([0-9A-F]{8}))?$/;
  const DENIED = /^denied (\d+) (\d+) ([0-9A-F]{8}) (\w+) ([0-9A-F]{8}) (\S+) (\d+)$/;
  const UNIT = /^( {2})?(\d+) (\d+) ([0-9A-F]{8}) (.*)$/;
  const CALL = /^syscall {2}(\w+)(.*?)(?: {2}\$2=([0-9A-F]{8})(?: (\w+))?)?$/;
  const LEFT = /^(.*) {2}(?:\$(\d+)|([0-9A-F]{8}))=([0-9A-F]{8})$/;
  const REFUSED = /^(\d+) command (\d+) refused (\d+)$/;
  const COMMAND = /^(\d+) command (\d+) (\w+) (\d+)(?: ([0-9A-Fa-f]{8}))?.*$/;
  const KEY = /^(\d+) key (\d) ([0-9A-F]{2})$/;
  const LOST = /^(\d+) lost (\d+)$/;
  const STANDS = /^(\d+) (\d+) (ready|waiting|parked|ended)$/;
  const GIVES_WAY = /^(\d+) (\d+) gives way$/;
  const RUNS = /^(\d+) (?:(\d+) runs|nobody runs)$/;

  // Each form of a line with what it tells. The first that fits is taken; a line that none fits tells nothing.
  const FORMS = [
    [ENTRY, (it) => entryOf(it)],
    [DENIED, (it) => ({ kind: "denied", time: +it[1], process: +it[2], at: it[3], what: it[4], address: it[5], rule: it[6], code: +it[7] })],
    [UNIT, (it) => unitOf(it)],
    [REFUSED, (it) => ({ kind: "refused", time: +it[1], command: +it[2], reason: +it[3] })],
    [COMMAND, (it) => ({ kind: "command", time: +it[1], command: +it[2], verb: it[3], process: +it[4], address: it[5] && it[5].toUpperCase() })],
    [KEY, (it) => ({ kind: "key", time: +it[1], console: +it[2], byte: parseInt(it[3], 16) })],
    [LOST, (it) => ({ kind: "lost", time: +it[1], count: +it[2] })],
    [STANDS, (it) => ({ kind: "stands", time: +it[1], process: +it[2], state: it[3] })],
    [GIVES_WAY, (it) => ({ kind: "gives way", time: +it[1], process: +it[2] })],
    [RUNS, (it) => ({ kind: "runs", time: +it[1], process: it[2] ? +it[2] : 0 })],
  ];

  function entryOf([, time, process, address, right, rest]) {
    const it = ENTRY_REST.exec(rest);
    if (!it) return null;
    const parent = it[6] ? { process: +it[6], address: it[7] } : null;
    return { kind: "entry", time: +time, process: +process, address, right, page: +it[1] || 0, rule: +it[2] || 0, until: +it[3] || 0, give: !!it[4], giver: +it[5] || 0, parent };
  }

  function unitOf([, slot, time, process, at, words]) {
    const unit = { kind: "unit", time: +time, process: +process, at, slot: !!slot, instruction: words };
    const call = CALL.exec(words);
    if (call) return { ...unit, kind: "call", instruction: "syscall", name: call[1], words: call[2].trim().split(" ").filter(Boolean), answer: call[3], refusal: call[4], register: call[3] ? 2 : 0, value: call[3] };
    const left = LEFT.exec(words);
    if (!left) return unit;
    return left[2] ? { ...unit, instruction: left[1], register: +left[2], value: left[4] } : { ...unit, instruction: left[1], word: left[3], value: left[4] };
  }

  // What a line tells, or null.
  function eventOf(line) {
    for (const [form, told] of FORMS) {
      const found = form.exec(line);
      if (found) return told(found);
    }
    return null;
  }

  // What the run put on the four consoles, the log, and the time, from where `console 0` begins in the text. A character of
  // the text is a byte, so that a console's count counts characters.
  function endOf(text) {
    const consoles = [];
    let at = /^console 0 \d+$/m.exec(text)?.index ?? -1;
    for (let number = 0; at >= 0 && number < 4; number += 1) {
      const head = /^console \d (\d+)\n/.exec(text.slice(at, at + 40));
      if (!head) break;
      at += head[0].length;
      consoles.push(text.slice(at, at + +head[1]));
      at += +head[1] + 1;
    }
    const rest = at < 0 ? "" : text.slice(at);
    return { consoles, log: /^log \d+\n([^]*?)^time /m.exec(rest)?.[1].split("\n").filter(Boolean) ?? [], time: /^time (\d+)$/m.exec(rest)?.[1] };
  }

  // The whole text: its lines, an event for each line that tells one (with the number of its line, from 0), and the end.
  // Past the most lines nothing is read of what happened, and `left` says so.
  function readTrace(text, most = Infinity) {
    const lines = text.split("\n"), events = [];
    let number = 0;
    for (; number < lines.length && number < most && !END.test(lines[number]); number += 1) {
      const event = eventOf(lines[number]);
      if (event) events.push({ ...event, line: number });
    }
    const left = number === most && number < lines.length;
    return { lines, events, left, ...endOf(text) };
  }

  Object.assign(dsmon, { eventOf, endOf, readTrace });
})(globalThis.dsmon ||= {});
