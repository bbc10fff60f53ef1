// What holds at a moment: the table of who may touch what, registers, and consoles.
"use strict";
(function (dsmon) {
  const { element } = dsmon;
  // So many entries are shown in a cell.
  const MOST_IN_CELL = 6;

  function chip(history, it, choose, isNew) {
    const told = [dsmon.granter(it.rule), it.until && `until ${it.until}`, it.giver && `given by process ${it.giver}`, it.parent && `shared from process ${it.parent.process} at ${it.parent.address}`].filter(Boolean).join(", ");
    const name = history.nameOf(it);
    return element("button", { type: "button", class: `chip ${it.right}${isNew ? " new" : ""}`, title: told, onclick: () => choose({ process: it.process, address: it.address, page: name }) },
      it.right === "none" ? "nothing" : it.right, it.give ? " + give" : "", " ", element("small", {}, it.address));
  }

  function cell(history, entries, choose, group) {
    const chips = entries.slice(0, MOST_IN_CELL).map((it) => chip(history, it, choose, group.includes(it)));
    const more = entries.length - chips.length;
    return element("td", {}, ...chips, more > 0 ? element("small", { class: "more" }, `and ${more} more`) : null);
  }

  // Pages down and processes across; below them what stands without a page, and what is denied now.
  function tableOf(history, stop, choose) {
    const event = history.eventAt(stop), line = event ? event.line : -1, group = line > history.firstLine ? history.groupAt(stop) : [];
    const entries = history.entriesAt(line), running = history.runningAt(line);
    const head = history.processes.map((process) => {
      const state = running === process ? "runs" : history.stateAt(process, line);
      return element("th", { scope: "col", class: state }, element("button", { type: "button", onclick: () => choose({ process }) }, `process ${process}`), element("small", {}, state));
    });
    const row = (name, list, title) => element("tr", {}, element("th", { scope: "row", title }, name), ...history.processes.map((process) => cell(history, list.filter((it) => it.process === process), choose, group)));
    const names = [...new Set([...history.pageNames.values(), ...entries.map((it) => history.nameOf(it)).filter(Boolean)])];
    const none = entries.filter((it) => it.right === "none");
    const rows = names.map((name) => row(name, entries.filter((it) => it.right !== "none" && history.nameOf(it) === name)));
    if (none.length) rows.push(row("no page", none, "an entry stands there, and lets nothing be done"));
    return element("table", { class: "rights" }, element("caption", {}, "Who may touch which page at this moment"), element("thead", {}, element("tr", {}, element("th", { scope: "col" }, "page"), ...head)), element("tbody", {}, ...rows));
  }

  // The buffer of the bare machine.
  function slotsOf(history, stop) {
    const event = history.eventAt(stop), line = event ? event.line : -1;
    const rows = history.slotsAt(line).map((it) => element("tr", { class: it.line === line ? "new" : "" }, ...[it.slot, it.page, it.space, it.frame, it.bits].map((text) => element("td", {}, String(text)))));
    const head = ["slot", "page", "asid", "frame", "bits"].map((it) => element("th", { scope: "col" }, it));
    return element("table", { class: "slots" }, element("caption", {}, "The translation buffer, as far as it has been written"), element("thead", {}, element("tr", {}, ...head)), element("tbody", {}, ...rows));
  }

  // Registers as far as lines have told them.
  function registersOf(title, registers) {
    const shown = registers.map((it) => element("span", { class: it.isNew ? "register new" : "register" }, element("b", {}, it.name ?? `$${dsmon.REGISTER_NAMES[it.number]}`), ` ${it.value}`));
    return element("div", { class: "registers" }, element("h3", {}, title), shown.length ? shown : element("small", {}, "No line has told of one yet."));
  }

  function consolesOf(title, texts) {
    const rows = texts.flatMap((it, k) => (it ? [element("div", { class: "console" }, element("small", {}, `line ${k}`), element("pre", {}, dsmon.shown(it, true)))] : []));
    return element("div", { class: "consoles" }, element("h3", {}, title), rows.length ? rows : element("small", {}, "Nothing is on them."));
  }

  function traceMoment(history, stop, choose) {
    const event = history.eventAt(stop), line = event ? event.line : -1, process = (event?.at && event.process) || history.runningAt(line) || history.unitAt(line)?.process || 1;
    const grow = history.consolesGrow;
    return [
      tableOf(history, stop, choose),
      registersOf(`Registers of process ${process}, as lines have told them`, history.registersAt(process, line)),
      consolesOf(grow ? "Consoles at this moment" : "Consoles at the end", grow ? history.consolesAt(line) : history.trace.consoles),
    ];
  }

  function bareMoment(history, stop) {
    const event = history.eventAt(stop);
    return [slotsOf(history, stop), registersOf("Registers, as lines have told them", history.registersAt(event ? event.line : -1)), consolesOf("Sent until the end", history.trace.consoles)];
  }

  Object.assign(dsmon, { traceMoment, bareMoment, consolesBox: consolesOf });
})(globalThis.dsmon ||= {});
