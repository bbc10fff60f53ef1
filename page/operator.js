// Adds keys and the operator's commands to the input, each as a line at its place in time.
"use strict";
(function (dsmon) {
  const timeOf = (line) => (/^\d+ /.test(line) ? +line.split(" ", 1)[0] : -1);

  // An input with one more line, behind those of its time and before later ones, and the number of that line, from 1.
  function withLine(input, line) {
    const rows = input.replace(/\n$/, "").split("\n"), time = timeOf(line), later = rows.findIndex((it) => timeOf(it) > time);
    let place = later < 0 ? rows.length : later;
    // Comments before the later line stay with it.
    while (later >= 0 && place > 0 && timeOf(rows[place - 1]) < 0) place -= 1;
    if (rows.length === 1 && !rows[0]) rows.pop();
    rows.splice(place, 0, line);
    return { text: `${rows.join("\n")}\n`, line: Math.min(place, rows.length - 1) + 1 };
  }

  // Characters as an input writes them.
  const hexOf = (text) => Array.from(new TextEncoder().encode(text), (it) => it.toString(16).toUpperCase().padStart(2, "0")).join("");

  class Operator {
    // `add` is called with each new line of the input.
    constructor(form, add) {
      this.fields = form.elements;
      this.add = add;
      form.onsubmit = (event) => event.preventDefault();
      form.onclick = ({ target }) => { if (target.dataset.verb) this.write(target.dataset.verb); };
    }

    // Fills in what is chosen on the page.
    choose({ time, process, address, page, right }) {
      if (time !== undefined) this.fields.time.value = time;
      if (process) this.fields.process.value = process;
      if (address) this.fields.address.value = address;
      if (page && [...this.fields.page.options].some((it) => it.value === page)) this.fields.page.value = page;
      if (right) this.fields.right.value = right;
    }

    // The pages that a grant may name.
    offer(pages) {
      const kept = this.fields.page.value;
      this.fields.page.replaceChildren(...pages.map((it) => dsmon.element("option", {}, it)));
      if (pages.includes(kept)) this.fields.page.value = kept;
    }

    write(verb) {
      const { time, process, address, page, right, give, console, keys } = this.fields;
      const entry = `${process.value} ${address.value.trim()}`;
      const words = {
        key: `${console.value} ${hexOf(keys.value)}`,
        grant: `${entry} ${page.value} ${right.value}${give.checked ? " give" : ""}`,
        resume: process.value,
        stop: process.value,
      }[verb] ?? entry;
      if (verb === "key" && !keys.value) keys.focus();
      else this.add(`${time.value} ${verb} ${words}`);
    }
  }

  Object.assign(dsmon, { Operator, withLine, hexOf });
})(globalThis.dsmon ||= {});
