// Tests of the picture: over stored traces what it shows is what the lines `entry` say, line by line and bar by bar.
"use strict";
const { test } = require("node:test");
const assert = require("node:assert");
const fs = require("node:fs");
const path = require("node:path");
for (const it of ["read_check", "read_trace", "history", "words", "trace_lanes", "bare"]) require(`../../page/${it}.js`);

const { History, BareHistory, bareLanes, bareTold, denialOf, readBare, readCheck, readList, readTrace, told, traceLanes, PAGE } = globalThis.dsmon;
const TOP = path.join(__dirname, "../.."), DATA = path.join(TOP, "crates/rows/data"), TRACES = path.join(__dirname, "traces");
const NOTHING_EXPLAINED = { names: new Map(), parts: new Map(), pages: 0 };

const bytes = (file) => fs.readFileSync(file, "latin1");

// The traces that are stored: those beside this file, each with what `check` explains, and each row of a trace with entries.
function stored() {
  const own = fs.readdirSync(TRACES).filter((it) => it.endsWith(".trace")).map((it) => ({ name: it, text: bytes(path.join(TRACES, it)), check: bytes(path.join(TRACES, it.replace(".trace", ".check"))), flags: "" }));
  const rows = bytes(path.join(DATA, "rows")).split("\n").map((it) => it.split(" ")).filter((it) => it[1] === "0" && it[3] === "trace" && it.includes("--entries"));
  return [...own, ...rows.map(([folder, , expected, , , , , ...flags]) => ({ name: `${folder}/${expected}`, text: bytes(path.join(DATA, folder, expected)), flags: flags.join(" ") }))];
}

function historyOf({ text, check, flags }) {
  const trace = readTrace(text), most = Math.max(1, ...trace.events.map((it) => it.process ?? 0));
  return new History(trace, check ? readCheck(check) : { ...NOTHING_EXPLAINED, processes: most }, flags);
}

// The lines `entry` of a text, by their words alone.
function entryLines(text) {
  return text.split("\n").flatMap((line, number) => {
    const words = line.split(" ");
    return words[1] === "entry" && /^\d+$/.test(words[0]) ? [{ number, time: +words[0], key: `${words[2]} ${words[3]}`, right: words[4], rest: words.slice(5).join(" ") }] : [];
  });
}

// An entry as its line writes what follows the right.
function written(it) {
  return [it.page && `page ${it.page}`, `rule ${it.rule}`, it.until && `until ${it.until}`, it.give && "give", it.giver && `giver ${it.giver}`, it.parent && `parent ${it.parent.process} ${it.parent.address}`].filter(Boolean).join(" ");
}

// What stands after the lines of which `isSo` holds: the last of each process and address, without those that are gone.
function standing(lines, isSo) {
  const last = new Map(lines.filter(isSo).map((it) => [it.key, it]));
  return [...last.values()].filter((it) => it.right !== "gone").map((it) => `${it.key} ${it.right} ${it.rest}`).sort();
}

const traces = stored();

test("there are traces to test", () => assert.ok(traces.length > 0));

for (const trace of traces) {
  const lines = entryLines(trace.text), history = historyOf(trace), picture = traceLanes(history);

  test(`${trace.name}: after each line the table has the entries that the lines say`, () => {
    for (const { line } of history.events) {
      const shown = history.entriesAt(line).map((it) => `${it.process} ${it.address} ${it.right} ${written(it)}`).sort();
      assert.deepEqual(shown, standing(lines, (it) => it.number <= line), `line ${line}`);
    }
  });

  test(`${trace.name}: at each time the bars are those of the entries that the lines say`, () => {
    const bars = picture.groups.slice(0, history.processes.length).flatMap((group, k) => group.lanes.flatMap((lane) =>
      Array.from({ length: lane.count }, (_, n) => [`${history.processes[k]} ${(parseInt(lane.address, 16) + n * PAGE).toString(16).toUpperCase().padStart(8, "0")}`, lane.bars])));
    const times = [...new Set(history.events.map((it) => it.time))].filter((it) => it >= history.from && it < history.to);
    for (const time of times) {
      const shown = bars.flatMap(([key, list]) => list.filter((it) => it.from <= time && time < it.to).map((it) => `${key} ${it.kind}${it.give ? " give" : ""}`)).sort();
      const wanted = standing(lines, (it) => it.time <= time).map((it) => it.split(" ").slice(0, 3).join(" ") + (/ give( |$)/.test(it) ? " give" : "")).sort();
      assert.deepEqual(shown, wanted, `time ${time}`);
    }
  });

  test(`${trace.name}: each denial has one cross, with words and a way to mend it`, () => {
    const crosses = picture.groups.flatMap((it) => [it, ...it.lanes]).flatMap((it) => it.marks).filter((it) => it.kind === "denied");
    const denied = trace.text.split("\nfrom ")[0].split("\n").flatMap((it, number) => (it.startsWith("denied ") ? [number] : []));
    assert.deepEqual(crosses.map((it) => it.line).sort((one, other) => one - other), denied);
    for (const it of crosses) assert.ok(it.label.length > 5 && it.label.length < 45 && it.told.length > 40, it.told);
  });

  test(`${trace.name}: each stop is told in words, and its line is read`, () => {
    history.stops.forEach((_, stop) => assert.match(told(history, stop), /^[A-Z].*[.:`]$/));
    const end = history.events.length ? history.events[history.events.length - 1].line + 1 : 0;
    assert.equal(history.events.length, end, "each line up to the last tells something");
  });
}

test("a line of an entry is read whole", () => {
  const { events: [it] } = readTrace("9 entry 2 00410000 read page 2 rule 3 until 40 give giver 1 parent 1 00410000\n");
  assert.deepEqual(it, { kind: "entry", time: 9, process: 2, address: "00410000", right: "read", page: 2, rule: 3, until: 40, give: true, giver: 1, parent: { process: 1, address: "00410000" }, line: 0 });
});

test("lines that are no lines of a trace tell nothing", () => {
  for (const it of ["", "9 entry 2 00410000 read page x", "entry 8 00400000 1 00012000 read", "9 entry", "nonsense", "9 2 0041 lui", "12 1 hops"]) assert.equal(globalThis.dsmon.eventOf(it), null, it);
});

test("units, calls and slots are read with what they leave", () => {
  const { events } = readTrace("9 1 00400014 sw $9,8($8)  00410008=0000004C\n  7 1 00400018 addiu $9,$0,1  $9=00000001\n12 1 00400030 syscall  give 00410000 2 00420000 read  $2=0000000E NoGrant\n99 2 00400014 .word 0x1520FFFC # bne $9,$0,.-12\n");
  assert.deepEqual([events[0].word, events[0].value, events[0].instruction], ["00410008", "0000004C", "sw $9,8($8)"]);
  assert.deepEqual([events[1].slot, events[1].register, events[1].value], [true, 9, "00000001"]);
  assert.deepEqual([events[2].name, events[2].words, events[2].answer, events[2].refusal], ["give", ["00410000", "2", "00420000", "read"], "0000000E", "NoGrant"]);
  assert.deepEqual([events[3].instruction, events[3].register], [".word 0x1520FFFC # bne $9,$0,.-12", undefined]);
});

test("consoles are read by their counts, whatever they have", () => {
  const console0 = "log 3\ntime 9\n", { consoles, log, time } = readTrace(`5 1 ended\nfrom 0 units 5 idle 0\nconsole 0 ${console0.length}\n${console0}\nconsole 1 0\n\nconsole 2 1\n\xff\nconsole 3 0\n\nlog 1\n5 1 00400014 store 00410008 r2 1\ntime 20\n`);
  assert.deepEqual(consoles, [console0, "", "\xff", ""]);
  assert.deepEqual([log, time], [["5 1 00400014 store 00410008 r2 1"], "20"]);
});

test("past the most lines nothing is read, and that is told", () => {
  const text = "0 1 00400000 nop\n".repeat(10);
  assert.deepEqual([readTrace(text, 4).events.length, readTrace(text, 4).left], [4, true]);
  assert.deepEqual([readTrace(`${text}time 5\n`, 10).events.length, readTrace(text).left], [10, false]);
});

test("each rule and code of a denial has its words", () => {
  const pairs = ["r0 2", "r0 3", "r2 1", "r2 2", "r1001 3", "r1002 1", "A 4", "A 5", "K 4", "K 5", "I 8", "I 9", "I 10", "I 11", "I 12", "r3 8"];
  const said = pairs.map((pair) => {
    const [rule, code] = pair.split(" "), what = rule === "I" ? "exec" : code === "8" ? "give" : code === "2" || code === "4" ? "load" : "store";
    const it = denialOf({ kind: "denied", time: 5, process: 1, at: "00400014", what, address: "00410008", rule, code: +code }, null);
    assert.ok(it.short && it.mend && it.told.includes("00400014"), pair);
    return `${it.told} ${it.mend}`;
  });
  assert.equal(new Set(said).size, pairs.length, "no two alike");
});

test("a denial is told by what became of the entry", () => {
  const denied = "denied 9 1 00400014 store 00410008 r2 1\n", first = "0 entry 1 00410000 write page 2 rule 2\n", unit = "0 1 00400000 nop\n";
  const short = (text) => {
    const history = historyOf({ text: `${text}${denied}`, flags: "" });
    return denialOf(history.events[history.events.length - 1], history.deciding(history.events[history.events.length - 1])).short;
  };
  assert.equal(short("0 entry 1 00410000 read page 2 rule 2\n"), "store, rule 2: read only");
  assert.equal(short(`${first}${unit}5 entry 1 00410000 read page 2 rule 2\n`), "store, narrowed at 5");
  assert.equal(short(`${unit}5 entry 1 00410000 read page 2 rule 2 giver 3 parent 3 00410000\n`), "store, rule 2: shared to read");
  assert.equal(short(`${first}${unit}5 entry 1 00410000 gone\n`).includes("narrowed"), false);
  const gone = historyOf({ text: `${first}${unit}5 entry 1 00410000 gone\ndenied 9 1 00400014 load 00410008 r0 2\n`, flags: "" });
  assert.equal(denialOf(gone.events[3], gone.deciding(gone.events[3])).short, "load, gone since 5");
  const ended = historyOf({ text: `0 entry 1 00410000 write page 2 rule 3 until 4\n${unit}5 entry 1 00410000 none rule 3\ndenied 9 1 00400014 load 00410008 r3 2\n`, flags: "" });
  assert.equal(denialOf(ended.events[3], ended.deciding(ended.events[3])).short, "load, rule 3 ended at 4");
});

test("the characters of a run grow on the lines that the policy names, or are not told to", () => {
  const text = "0 1 00400000 syscall  put 41  $2=00000000\n1 2 00400000 syscall  put 42  $2=00000000\nfrom 0 units 2\nconsole 0 1\nB\nconsole 1 1\nA\nconsole 2 0\n\nconsole 3 0\n\nlog 0\ntime 2\n";
  const made = (policy) => new History(readTrace(text), { ...NOTHING_EXPLAINED, processes: 2 }, "", policy);
  for (const policy of ["[[process]]\nline = 1\n[[process]]\nstart = 0\nline=0 # line = 2\n", "process = [\n{ start = 0, line = 1 },\n{ line = 0 }]\n"]) {
    const history = made(policy);
    assert.ok(history.consolesGrow, policy);
    assert.deepEqual(history.consolesAt(0), ["", "A", "", ""]);
    assert.deepEqual(history.consolesAt(1), ["B", "A", "", ""]);
  }
  for (const policy of ["", "[[process]]\nline = 0\n[[process]]\nline = 1\n"]) assert.ok(!made(policy).consolesGrow, policy);
});

for (const file of fs.readdirSync(path.join(DATA, "examples/bare")).filter((it) => it.endsWith(".expected"))) {
  test(`bare ${file}: each line is an instruction, and each slot and exception has its mark`, () => {
    const text = bytes(path.join(DATA, "examples/bare", file)), bare = readBare(text), history = new BareHistory(bare, file), lanes = bareLanes(history).groups.flatMap((it) => it.lanes);
    const count = (form) => (text.split("\nend after")[0].match(form) ?? []).length, marks = (kind) => lanes.flatMap((it) => it.marks).filter((it) => it.kind === kind).length;
    assert.equal(bare.events.length, text.split("\n").findIndex((it) => it.startsWith("end after")));
    assert.equal(marks("exception"), count(/; exception /g));
    assert.equal(marks("writes"), count(/; slot /g));
    assert.equal(marks("store"), count(/ holds /g));
    assert.ok(bare.events.every((it) => it.parts.every((part) => part.kind !== "other")));
    // The entries of the end are those that the lines have left.
    const end = text.split("\n").filter((it) => it.startsWith("slot ") && / V/.test(it)), last = bare.events[bare.events.length - 1].line;
    assert.deepEqual(history.slotsAt(last).filter((it) => it.bits.includes("V")).map((it) => `slot ${it.slot} ${globalThis.dsmon.slotTold(it)}`), end);
    history.stops.forEach((_, stop) => assert.match(bareTold(history, stop), /^Instruction \d+, at [0-9A-F]{8}: /));
  });
}

test("a listing leads from bytes to lines", () => {
  const listed = readList("    1                        # Writes A and exits.\n    2  00400000  24040041    put:    addiu $4,$0,65\n    8  00400014  41          text:   .byte 65\n    9  00400015  00 x 7              .space 7\nlabels\n00400000  put\n");
  assert.deepEqual([...listed], [[0, 2], [20, 8], [21, 9]]);
});
