#!/usr/bin/env node
// Opens a page that tools/page.py has made in Chromium, and tries what a user does with it.
//
//     tools/page_drive.js TO [--shots FOLDER]
//
// Each example is opened, and its text compared with what is stored; then a denial is made, read and mended, and each other button is
// tried. The status is 1 where something is otherwise than it should be, or the page says something on its console.
"use strict";
const fs = require("node:fs");
const http = require("node:http");
const path = require("node:path");
const { pathToFileURL } = require("node:url");
const { Chromium, installed } = require("./page/chromium.js");

const DATA = path.join(__dirname, "../crates/rows/data");
const WIDTH = 1280, HEIGHT = 800;
// Pictures for docs/page.md: of which example, and perhaps at which time.
const SHOTS = { denied_store: { file: "denied_store" }, taken_back: { file: "taken_back" }, "bare/handler": { file: "bare", time: 95 } };
const CTRL = 2, SHIFT = 8;
const CROSSES = `document.querySelectorAll("#picture path.denied:not(.chosen)").length`;
const ENTRY = /^\d+ entry \d+ [0-9A-F]{8} (?:read|write|none|gone).*\n/gm;

const POLICY = `version = 1
frames = 16
process = [{ start = 0x00400000, line = 0 }]
page = [{ name = "code", source = "mine.s", part = 0 }, { name = "data" }]
rule = [
    { process = 1, address = 0x00400000, right = "read", page = "code" },
    { process = 1, address = 0x00410000, right = "read", page = "data" },
]
`;
const SOURCE = "        lui $t0, 0x41\n        lw  $t1, 8($t0)\n        sw  $zero, 8($t0)\n        addiu $v0, $zero, 0\n        syscall\n";
const WRITES_FOR_EVER = "again:  addiu $a0, $zero, 65\n        addiu $v0, $zero, 1\n        syscall\n        j     again\n        nop\n";

const shot = async (browser, folder, name) => folder && browser.shot(path.join(folder, `${name}.png`));

class Driver {
  constructor(browser, shots) {
    Object.assign(this, { browser, shots, bad: 0, good: 0 });
  }

  is(isSo, what, more = "") {
    if (isSo) this.good += 1; else this.bad += 1;
    if (!isSo) console.log(`NOT: ${what} ${JSON.stringify(more).slice(0, 600)}`);
  }

  at(id) { return this.browser.value(`document.getElementById(${JSON.stringify(id)}).textContent`); }
  text() { return this.browser.value("dsmon.page.text"); }

  // Acts, and waits until the page has answered.
  async act(expression, seconds) {
    await this.browser.value("dsmon.page.done = undefined; 0");
    await this.browser.value(`${expression}; 0`);
    await this.browser.until("dsmon.page.done", seconds);
  }

  click(id) { return this.act(`document.getElementById(${JSON.stringify(id)}).click()`); }

  async open(url) {
    await this.browser.send("Page.navigate", { url: "about:blank" });
    await this.browser.send("Page.navigate", { url });
    await this.browser.until("globalThis.dsmon?.page?.done");
  }

  // Writes a text as a user does.
  async write(id, text) {
    await this.browser.value(`{ const it = document.getElementById(${JSON.stringify(id)}); it.value = ${JSON.stringify(text)}; it.dispatchEvent(new Event("input")); } 0`);
  }
}

const stored = () => fs.readFileSync(path.join(DATA, "rows"), "utf8").split("\n").map((it) => it.split(" "));

// Each example and lab: what is written is what is stored, and each line `denied` has its cross.
async function examples(driver) {
  const all = await driver.browser.value("dsmon.examples.map(({ name, ticks, flags }) => ({ name, ticks, flags }))"), rows = stored();
  for (const given of all) {
    const { name } = given;
    const time = SHOTS[name]?.time === undefined ? "" : `&time=${SHOTS[name].time}`;
    await driver.act(`location.hash = "example=${name}${time}"`);
    const folder = name.includes("/") ? `examples/${name.split("/")[0]}` : "examples", stem = name.split("/").pop(), text = await driver.text();
    const own = rows.filter((it) => it[0] === folder && it[1] === "0" && (it[4] === `${stem}.toml` || it[4] === `${stem}.s`));
    for (const [, , expected, kind, , , ticks, ...flags] of own) {
      const wanted = fs.readFileSync(path.join(DATA, folder, expected), "latin1"), hasEntries = flags.includes("--entries");
      const isAlike = kind === "bare" || (kind === "trace" && +ticks === given.ticks && flags.filter((it) => it !== "--entries").join(" ") === given.flags);
      if (kind === "run") driver.is(text.endsWith(wanted), `${name}: the end is ${expected}`, text.slice(-200));
      if (isAlike) driver.is((hasEntries ? text : text.replace(ENTRY, "")) === wanted, `${name}: the text is ${expected}`, text.slice(0, 200));
    }
    driver.is(own.length > 0, `${name} has a row`);
    const denied = name.startsWith("bare/") ? 0 : (text.split("\nfrom ")[0].match(/^denied /gm) ?? []).length, crosses = await driver.browser.value("dsmon.page.view.picture.groups.flatMap((it) => [it, ...it.lanes]).flatMap((it) => it.marks).filter((it) => it.kind === 'denied').length");
    driver.is(crosses === denied, `${name}: ${denied} denials have ${crosses} crosses`);
    if (denied && denied < 5) driver.is((await driver.browser.value(CROSSES)) === denied, `${name}: as many are drawn`);
    if (SHOTS[name]) await shot(driver.browser, driver.shots, SHOTS[name].file);
  }
}

// Makes a denial happen, reads why, mends the policy, and sees the cross gone.
async function denial(driver) {
  await driver.act(`location.hash = "example=hello"`);
  driver.is((await driver.browser.value(CROSSES)) === 0, "hello has no cross");
  await driver.write("policy", POLICY);
  await driver.click("trace");
  driver.is(/26 Unreadable mine\.s[^]*editor/.test(await driver.at("said")), "a missing source is told", await driver.at("said"));
  driver.is((await driver.browser.value("document.getElementById('sources').value")) === "mine.s", "and its editor is open");
  await driver.write("source", SOURCE);
  await driver.browser.value("document.getElementById('source').focus(); 0");
  await driver.browser.value("dsmon.page.done = undefined; 0");
  await driver.browser.key("Enter", CTRL);
  await driver.browser.until("dsmon.page.done");
  driver.is((await driver.browser.value(CROSSES)) === 1, "there is a cross", await driver.at("said"));
  const why = await driver.at("told");
  driver.is(/denied a store to 00410008: rule 2 lets it only read/.test(why) && /right = "write" in rule 2/.test(why), "the page says why, and what mends it", why);
  await shot(driver.browser, driver.shots, "denial");
  await driver.browser.value("document.querySelector('#told button').click(); 0");
  const chosen = await driver.browser.value("{ const it = document.getElementById('policy'); it.value.slice(it.selectionStart, it.selectionEnd) }");
  driver.is(/0x00410000, right = "read"/.test(chosen), "the rule is selected", chosen);
  await driver.write("policy", POLICY.replace('right = "read", page = "data"', 'right = "write", page = "data"'));
  await driver.click("trace");
  driver.is((await driver.browser.value(CROSSES)) === 0 && /Nothing is denied/.test(await driver.at("said")), "the cross is gone", await driver.at("said"));
}

// Refusals select their line, and say how they are mended.
async function refusals(driver) {
  const selected = (id) => driver.browser.value(`{ const it = document.getElementById("${id}"); document.activeElement.id + " " + it.value.slice(it.selectionStart, it.selectionEnd) }`);
  await driver.act(`location.hash = "example=denied_store"`);
  await driver.write("source", (await driver.browser.value("document.getElementById('source').value")).replace("syscall", "sysall"));
  await driver.click("trace");
  driver.is(/no mnemonic `?sysall/.test(await driver.at("said")) && /^source +sysall/.test(await selected("source")), "a source's line", await driver.at("said"));
  await driver.act(`dsmon.page.open({ example: "denied_store" })`);
  await driver.write("policy", (await driver.browser.value("document.getElementById('policy').value")).replace('page = "data"', 'page = "dat"'));
  await driver.click("run");
  driver.is(/9 BadRule 2[^]*Write the/.test(await driver.at("said")) && /^policy page = "dat"/.test(await selected("policy")), "a policy's line", await driver.at("said"));
  await driver.act(`dsmon.page.open({ example: "denied_store" })`);
  await driver.write("input", "# one\n8 dorp 1 00410000\n");
  await driver.click("check");
  driver.is(/20 InputFault 2/.test(await driver.at("said")) && (await selected("input")) === "input 8 dorp 1 00410000", "an input's line", await driver.at("said"));
  await driver.write("input", "");
  await driver.write("ticks", "many");
  await driver.click("trace");
  driver.is(/invalid value 'many'/.test(await driver.at("said")), "wrong words", await driver.at("said"));
}

// A guest that writes for ever leaves the page alive, and can be stopped.
async function forEver(driver) {
  await driver.act(`location.hash = "example=hello"`);
  await driver.write("policy", POLICY.replace("mine.s", "hello.s"));
  await driver.write("source", WRITES_FOR_EVER);
  await driver.write("ticks", "1000000000");
  await driver.browser.value("dsmon.page.done = undefined; document.getElementById('run').click(); 0");
  await driver.browser.until("/running [1-9]/.test(document.getElementById('state').textContent)");
  driver.is((await driver.browser.value("document.getElementById('run').disabled && !document.getElementById('stop').disabled")) === true, "the page is alive while it runs");
  await driver.click("stop");
  driver.is(/Stopped/.test(await driver.at("said")), "it is stopped", await driver.at("said"));
  await driver.write("ticks", "2000000");
  await driver.click("trace");
  driver.is(/cut short: more text than 16 MiB/.test(await driver.at("said")), "a trace without an end is cut, and that is told", await driver.at("said"));
  driver.is(/Only the first 100000 lines are drawn/.test(await driver.at("said")), "so many lines are drawn");
  await driver.act("document.querySelector('#said button').click()");
  driver.is((await driver.browser.value("document.getElementById('flags').value")) === "--only switches", "and fewer are offered");
  await driver.write("flags", "");
  await driver.write("ticks", "1000000000");
  await driver.browser.value("document.getElementById('run').click(); 0");
  await driver.browser.value(`dsmon.page.open({ example: "fault" })`);
  driver.is((await driver.browser.value(CROSSES)) === 1 && (await driver.browser.value("document.getElementById('ticks').value")) === "10", "another example ends what runs", await driver.at("said"));
  await driver.browser.value(`dsmon.page.open({ example: "hello" })`);
  await driver.write("ticks", "50");
  await driver.click("trace");
  driver.is(/Hello/.test(await driver.at("moment")) || /Nothing is denied/.test(await driver.at("said")), "then it runs as before", await driver.at("said"));
}

// Fewer lines, down to none.
async function fewer(driver) {
  await driver.act(`location.hash = "example=taken_back"`);
  for (const [flags, told] of [["--only end", /The log has 2 denials/], ["--from 5000", /The log has 2/], ["--only switches", /The log has 2/], ["--process 2", /^1 denial/], ["--process 9", /The log has 2/], ["--only denials --processor", /^2 denials/], ["--entries", /^2 denials/]]) {
    await driver.write("flags", flags);
    await driver.click("trace");
    await driver.browser.value("dsmon.page.view.step(1); dsmon.page.view.zoom(2); 0");
    driver.is(told.test(await driver.at("said")), flags, await driver.at("said"));
  }
  await driver.write("ticks", "0");
  await driver.click("trace");
  driver.is(/Nothing is denied/.test(await driver.at("said")) && /Nothing happened/.test(await driver.at("told")), "no tick", await driver.at("said"));
}

// Steps by keys, a command by a click, a link, the other buttons.
async function rest(driver, url) {
  await driver.act(`location.hash = "example=lent_page"`);
  await driver.browser.value("document.getElementById('picture').focus(); 0");
  const now = () => driver.at("now");
  await driver.browser.key("Home");
  driver.is((await now()) === "time 0", "Home leads to the beginning", await now());
  await driver.browser.key("ArrowRight");
  await driver.browser.key("ArrowRight");
  driver.is((await now()) === "time 1", "an arrow is a step", await now());
  await driver.browser.key("ArrowRight", SHIFT);
  driver.is((await now()) === "time 44", "with Shift it leads to the next denial", await now());
  await driver.browser.key("ArrowRight", SHIFT);
  driver.is((await now()) === "time 47", "and to the one after it", await now());
  await driver.browser.value("dsmon.page.view.go(dsmon.page.view.history.stopAtTime(20)); document.querySelector('#moment .chip.write').click(); 0");
  await driver.act("document.querySelector('[data-verb=revoke]').click()");
  driver.is(/^20 revoke 1 00410000$/m.test(await driver.browser.value("document.getElementById('input').value")), "a click adds a command");
  driver.is(/^21 command 1 revoke|^20 command 1 revoke/m.test(await driver.text()) && (await now()) === "time 20", "and the run is traced anew, at the same moment", await now());
  const before = await driver.browser.value("JSON.stringify(dsmon.page.editors.texts())");
  await driver.browser.value("document.getElementById('link').click(); 0");
  await driver.browser.until("location.hash.startsWith('#packed=')");
  const link = await driver.browser.value("location.hash");
  await driver.open(`${url}${link}`);
  driver.is((await driver.browser.value("JSON.stringify(dsmon.page.editors.texts())")) === before && (await now()) === "time 20", "the link has all of it");
  for (const [act, form] of [["check", /^table\nprocess 1/], ["list", /^ +1 {2}/], ["run", /^console 0 /]]) {
    await driver.click(act);
    driver.is(form.test(await driver.text()), `${act} shows its text`, (await driver.text()).slice(0, 80));
  }
  await driver.browser.value("dispatchEvent(new Event('beforeprint')); 0");
  driver.is(/20 revoke 1 00410000/.test(await driver.at("printed")), "the texts are printed");
}

// The page in several files, from a server: its module is the one with 64 bits where the browser takes it.
async function served(driver, folder) {
  const types = { ".html": "text/html", ".js": "text/javascript", ".css": "text/css" };
  const server = http.createServer((asked, answer) => {
    const file = path.join(folder, path.basename(new URL(asked.url, "http://page").pathname));
    if (!fs.existsSync(file)) return answer.writeHead(path.basename(file) === "favicon.ico" ? 204 : 404).end();
    answer.writeHead(200, { "Content-Type": types[path.extname(file)] ?? "application/octet-stream" });
    return fs.createReadStream(file).pipe(answer);
  });
  await new Promise((done) => server.listen(0, "127.0.0.1", done));
  await driver.open(`http://127.0.0.1:${server.address().port}/index.html#example=taken_back`);
  driver.is((await driver.browser.value(CROSSES)) === 2, "the page runs from a server", await driver.at("said"));
  server.close();
}

// A browser without WebAssembly is told so.
async function without(driver, url) {
  const { identifier } = await driver.browser.send("Page.addScriptToEvaluateOnNewDocument", { source: "delete globalThis.WebAssembly;" });
  await driver.browser.send("Page.navigate", { url: "about:blank" });
  await driver.browser.send("Page.navigate", { url });
  await driver.browser.until("/no WebAssembly/.test(document.getElementById('said')?.textContent)");
  driver.is(await driver.browser.value("document.getElementById('trace').disabled"), "nothing can be pressed");
  await driver.browser.send("Page.removeScriptToEvaluateOnNewDocument", { identifier });
}

async function main([folder, ...more]) {
  if (!folder) {
    console.log("tools/page_drive.js TO [--shots FOLDER]");
    return 1;
  }
  const name = installed();
  if (!name) {
    console.log("skipped: Chromium is not installed");
    return 0;
  }
  const shots = more[0] === "--shots" ? more[1] : undefined;
  if (shots) fs.mkdirSync(shots, { recursive: true });
  const browser = new Chromium(name), driver = new Driver(browser, shots), url = pathToFileURL(path.resolve(folder, "dsmon.html")).href;
  try {
    await browser.begin(WIDTH, HEIGHT);
    await driver.open(url);
    for (const scene of [examples, denial, refusals, forEver, fewer]) await scene(driver);
    await rest(driver, url);
    await served(driver, folder);
    await without(driver, url);
    driver.is(browser.said.length === 0, "the console is empty", browser.said);
  } finally {
    await browser.end();
  }
  console.log(`${driver.good} as it should be, ${driver.bad} not`);
  return driver.bad ? 1 : 0;
}

main(process.argv.slice(2)).then((status) => { process.exitCode = status; });
