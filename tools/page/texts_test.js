// Tests of what the page does with texts: lines that are added to an input, rules that are found, and links.
"use strict";
const { test } = require("node:test");
const assert = require("node:assert");
for (const it of ["words", "editors", "operator", "link"]) require(`../../page/${it}.js`);

const { withLine, hexOf, ruleLine, keyLine, linkOf, stateOf } = globalThis.dsmon;

test("a line of the input comes behind those of its time and before later ones", () => {
  const input = "# What comes.\n8 drop 1 00410000\n8 resume 1\n\n# Later.\n20 key 0 41\n";
  const at = (line) => withLine(input, line);
  assert.deepEqual(at("8 stop 2"), { text: "# What comes.\n8 drop 1 00410000\n8 resume 1\n8 stop 2\n\n# Later.\n20 key 0 41\n", line: 4 });
  assert.deepEqual(at("2 stop 2").text.split("\n").slice(0, 3), ["2 stop 2", "# What comes.", "8 drop 1 00410000"]);
  assert.deepEqual(at("30 stop 2"), { text: `${input}30 stop 2\n`, line: 7 });
  assert.deepEqual(at("20 stop 2").line, 7);
});

test("an input that is empty, or has no line's end, gets a line", () => {
  assert.deepEqual(withLine("", "5 stop 1"), { text: "5 stop 1\n", line: 1 });
  assert.deepEqual(withLine("# Nothing happens.", "5 stop 1"), { text: "# Nothing happens.\n5 stop 1\n", line: 2 });
  assert.deepEqual(withLine("4 stop 1", "5 stop 2"), { text: "4 stop 1\n5 stop 2\n", line: 2 });
});

test("times never fall, whatever is added in whatever order", () => {
  let text = "# a\n\n10 stop 1\n# b\n30 stop 1\n";
  for (const time of [5, 30, 10, 31, 0, 12, 29]) text = withLine(text, `${time} resume 1`).text;
  const times = text.split("\n").filter((it) => /^\d/.test(it)).map((it) => +it.split(" ")[0]);
  assert.deepEqual(times, [...times].sort((one, other) => one - other));
  assert.equal(times.length, 9);
});

test("keys are written as bytes", () => {
  assert.equal(hexOf("Hi.\n"), "48692E0A");
  assert.equal(hexOf("ö"), "C3B6");
});

test("a rule is found by its number, as tables and as an array", () => {
  const tables = "version = 1\n[[rule]]\nprocess = 1\n  [[ rule ]]\n# [[rule]]\n[[rule]]\n".split("\n");
  assert.deepEqual([1, 2, 3, 4].map((it) => ruleLine(tables, it)), [2, 4, 6, 0]);
  const array = "process = [{ start = 0 }]\nrule = [\n  { process = 1 }, # {\n  { process = 2 }, { process = 3 },\n]\n".split("\n");
  assert.deepEqual([1, 2, 3, 4].map((it) => ruleLine(array, it)), [3, 4, 4, 0]);
});

test("a key of a rule is found where it has a line of its own", () => {
  const rows = "[[rule]]\nprocess = 1\nright = \"read\"\n[[rule]]\nuntil=3\n".split("\n");
  assert.deepEqual([keyLine(rows, 1, "right"), keyLine(rows, 1, "until"), keyLine(rows, 4, "until"), keyLine(rows, 4, undefined)], [3, 0, 5, 0]);
  assert.equal(keyLine(["rule = [", "  { right = 1 },", "  { right = 2 },", "]", "right = 3"], 2, "right"), 0);
});

const STATE = { policy: "version = 1\n# ü\n", sources: { "one.s": "nop\n", "b/two.s": "" }, input: "5 key 0 41\n", ticks: "100", flags: "--only calls", act: "trace", time: 44 };

test("a link holds all three texts", async () => {
  const link = await linkOf(STATE);
  assert.match(link, /^packed=[\w-]+$/);
  assert.deepEqual(await stateOf(`#${link}`), { example: undefined, ...STATE });
});

test("a link holds them where nothing packs", async () => {
  const kept = globalThis.CompressionStream;
  globalThis.CompressionStream = undefined;
  try {
    const link = await linkOf(STATE);
    assert.match(link, /^texts=[\w-]+$/);
    assert.deepEqual(await stateOf(link), { example: undefined, ...STATE });
  } finally {
    globalThis.CompressionStream = kept;
  }
});

test("a link names an example, what to do and when", async () => {
  assert.deepEqual(await stateOf("#example=labs/reach&act=run&time=5"), { example: "labs/reach", act: "run", time: 5 });
  assert.deepEqual(await stateOf(""), { example: undefined, act: undefined, time: undefined });
});

test("a link that is not whole is told so", async () => {
  const link = await linkOf(STATE);
  for (const it of [link.slice(0, 40), "packed=%%%", "texts=bm90aGluZw", "packed="]) assert.ok((await stateOf(it)).broken, it);
});
