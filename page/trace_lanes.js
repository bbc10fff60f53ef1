// The lanes of a run: for each process how it stands, and below it each address at which it had an entry or was denied.
"use strict";
(function (dsmon) {
  // Calls that change who may touch what, and the word in which each has the address of its own page.
  const GRANTS = { give: 0, drop: 0 };
  // Calls that are in nearly every line tell nothing at a glance.
  const COMMON = new Set(["put", "yield", "get", "self", "time"]);

  const MANY_ALIKE = 4;

  // What holds from each change to the next, as bars from the first time to the last.
  function bars(changes, to, barOf) {
    return changes.values.flatMap((it, k) => {
      const end = changes.values[k + 1]?.time ?? to;
      const bar = end > it.time || to === it.time ? barOf(it) : null;
      return bar ? [{ ...bar, from: it.time, to: end, line: it.line }] : [];
    });
  }

  function entryBar(history, it) {
    if (it.right === "gone") return null;
    const may = { read: "may read", write: "may read and write", none: "may do nothing" }[it.right];
    const more = [it.page && history.nameOf(it), dsmon.granter(it.rule), it.until && `until ${it.until}`, it.giver && `given by process ${it.giver}`, it.give && "may give it on"];
    return { kind: it.right, give: it.give, told: `process ${it.process} ${may} at ${it.address}: ${more.filter(Boolean).join(", ")}` };
  }

  function stateBars(history, process) {
    const states = history.states.get(process);
    const stands = states ? bars(states, history.to, (it) => ({ kind: it.state, told: `process ${process} is ${it.state}` })) : [];
    const runs = bars(history.running, history.to, (it) => (it.process === process ? { kind: "runs", told: `process ${process} runs` } : null));
    return [...stands, ...runs];
  }

  // A command, which may be refused.
  function commandMark(history, event, mark) {
    const reason = history.refusals.get(event.command), told = `command ${event.command}: ${event.verb}`;
    return reason ? { ...mark, kind: "refused", told: `${told}, refused by ${reason} ${dsmon.REFUSALS[reason] ?? ""}`, label: `${event.verb} refused` } : { ...mark, told, label: event.verb };
  }

  // The mark of an event, with the process and perhaps the address on whose lane it stands.
  function markOf(history, event) {
    const mark = { kind: event.kind, time: event.time + 0.5, line: event.line, process: event.process };
    if (event.kind === "denied") {
      const denial = dsmon.denialOf(event, history.deciding(event));
      return { ...mark, address: event.what === "exec" ? undefined : dsmon.pageOf(event.address), told: `${denial.told} ${denial.mend}`, label: denial.short };
    }
    if (event.kind === "command") return commandMark(history, event, { ...mark, time: event.time, address: event.address });
    if (event.kind === "call") {
      if (COMMON.has(event.name)) return null;
      const grant = event.name in GRANTS || event.name === "take";
      const address = event.name in GRANTS ? dsmon.pageOf(event.words[GRANTS[event.name]]) : undefined;
      return { ...mark, kind: grant ? event.name : "call", address, told: `${event.name} ${event.words.join(" ")}${event.refusal ? `: refused, ${event.refusal}` : ""}` };
    }
    if (event.word) return { ...mark, kind: "store", address: dsmon.pageOf(event.word), told: `${event.instruction}: ${event.word} then holds ${event.value}` };
    if (event.kind === "entry" && history.endOf(event)) return { ...mark, kind: "end", time: event.time, address: event.address, told: "the right has ended" };
    return null;
  }

  // All marks, by the process and the address of their lane, with the empty address for the process itself.
  function marksOf(history) {
    const found = new Map();
    for (const event of history.events) {
      const mark = event.time >= history.from && event.time <= history.to ? markOf(history, event) : null;
      if (!mark || !mark.process) continue;
      const key = `${mark.process} ${mark.address ?? ""}`;
      if (!found.has(key)) found.set(key, []);
      found.get(key).push(mark);
    }
    return found;
  }

  function lane(history, address, changes, marks) {
    const names = changes ? [...new Set(changes.values.map((it) => history.nameOf(it)).filter(Boolean))] : [];
    return { address, count: 1, title: address, detail: names.join(", ") || "nothing", bars: changes ? bars(changes, history.to, (it) => entryBar(history, it)) : [], marks };
  }

  // Whether a lane is of the page after another's, with the same rights at the same times, and nothing is marked in either.
  function isAlike(one, other) {
    const same = (it) => `${it.kind} ${it.give} ${it.from} ${it.to}`;
    return !one.marks.length && !other.marks.length && parseInt(one.address, 16) + dsmon.PAGE === parseInt(other.address, 16)
      && one.bars.length === other.bars.length && one.bars.every((it, k) => same(it) === same(other.bars[k]));
  }

  // Where many lanes in a row are alike, one in their place.
  function merged(lanes) {
    const rows = [];
    for (const it of lanes) {
      const row = rows[rows.length - 1];
      if (row && isAlike(row[row.length - 1], it)) row.push(it); else rows.push([it]);
    }
    return rows.flatMap((row) => {
      if (row.length < MANY_ALIKE) return row;
      const [first, last] = [row[0].detail, row[row.length - 1].detail];
      return [{ ...row[0], count: row.length, title: `${row[0].address} + ${row.length - 1}`, detail: first === last ? first : `${first} .. ${last}` }];
    });
  }

  function group(history, process, marks) {
    const entries = new Map(), addresses = new Set();
    for (const [key, changes] of history.entries) {
      const [number, address] = key.split(" ");
      if (+number === process) entries.set(address, changes);
    }
    for (const key of [...marks.keys()].map((it) => it.split(" "))) if (+key[0] === process && key[1]) addresses.add(key[1]);
    const all = [...new Set([...entries.keys(), ...addresses])].sort();
    return {
      title: `process ${process}`,
      bars: stateBars(history, process),
      marks: marks.get(`${process} `) ?? [],
      lanes: merged(all.map((it) => lane(history, it, entries.get(it), marks.get(`${process} ${it}`) ?? []))),
    };
  }

  // The characters that come in have a lane for each console line.
  function keysGroup(history) {
    const keys = history.events.filter((it) => it.kind === "key"), lines = [...new Set(keys.map((it) => it.console))].sort();
    const marks = (line) => keys.filter((it) => it.console === line).map((it) => ({ kind: "key", time: it.time, line: it.line, told: `comes in: ${dsmon.character(it.byte)}` }));
    return lines.length ? [{ title: "keys", bars: [], marks: [], lanes: lines.map((it) => ({ title: `line ${it}`, detail: "", bars: [], marks: marks(it) })) }] : [];
  }

  // The picture of a history: its time, and its lanes.
  function traceLanes(history) {
    const marks = marksOf(history);
    return { from: history.from, to: history.to, groups: [...history.processes.map((it) => group(history, it, marks)), ...keysGroup(history)] };
  }

  Object.assign(dsmon, { traceLanes });
})(globalThis.dsmon ||= {});
