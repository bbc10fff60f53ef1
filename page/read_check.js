// Reads what `dsmon check` explains: names of pages, where their bytes come from, and how many there are of each; and what
// `dsmon list` writes.
"use strict";
(function (dsmon) {
  const ENTRY = /^ {2}[0-9A-F]{8} (?:read |write) (\w+), (?:part (\d+) of ([^,]+)|zero), rule (\d+)/gm;
  const GRANT = /^\d+ command \d+, rule (\d+): grant \d+ [0-9A-Fa-f]{8} (\w+) /gm;
  const LISTED = /^ *(\d+) {2}([0-9A-F]{8}) {2}/gm;
  const IMAGE = 0x00400000;
  const PAGE = 4096;

  // The page that each rule and each command names, the part of a source that a page has, and the counts.
  function readCheck(text) {
    const names = new Map(), parts = new Map();
    for (const [, name, part, source, rule] of text.matchAll(ENTRY)) {
      names.set(+rule, name);
      if (source) parts.set(name, { source, part: +part });
    }
    for (const [, rule, name] of text.matchAll(GRANT)) names.set(+rule, name);
    const count = (of) => +(new RegExp(`^${of} (\\d+) of`, "m").exec(text)?.[1] ?? 0);
    return { names, parts, processes: count("processes"), pages: count("pages") };
  }

  // The lines of a source by the place of their bytes in its image.
  function readList(text) {
    return new Map([...text.matchAll(LISTED)].map(([, line, address]) => [parseInt(address, 16) - IMAGE, +line]));
  }

  Object.assign(dsmon, { PAGE, readCheck, readList });
})(globalThis.dsmon ||= {});
