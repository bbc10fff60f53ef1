// The three editors: policy, sources and input. Each has numbers of lines, and a bar at one of them.
"use strict";
(function (dsmon) {
  const HEIGHT = 18, PADDING = 4;
  const POLICY = "policy.toml", INPUT = "input.txt";

  class Editor {
    // Of an element with a `textarea`, around which the numbers and the bar are put.
    constructor(box, changed) {
      this.area = box.querySelector("textarea");
      this.numbers = dsmon.element("pre", { class: "numbers", "aria-hidden": "true" });
      this.bar = dsmon.element("div", { class: "marked", hidden: true });
      this.area.before(this.bar, this.numbers);
      this.line = 0;
      this.area.onscroll = () => this.place();
      this.area.oninput = () => {
        this.mark(0);
        this.count();
        changed();
      };
    }

    get text() { return this.area.value; }
    set text(text) {
      this.area.value = text;
      this.area.scrollTop = 0;
      this.mark(0);
      this.count();
    }

    get rows() { return this.text.split("\n"); }

    count() {
      this.numbers.textContent = this.rows.map((_, k) => k + 1).join("\n");
      this.place();
    }

    place() {
      this.numbers.scrollTop = this.area.scrollTop;
      this.bar.hidden = !this.line;
      this.bar.style.top = `${PADDING + (this.line - 1) * HEIGHT - this.area.scrollTop}px`;
    }

    // Puts the bar at a line, from 1, and scrolls to it; no bar at 0.
    mark(line, kind = "now") {
      this.line = line;
      this.bar.className = `marked ${kind}`;
      const top = PADDING + (line - 1) * HEIGHT, sight = this.area.clientHeight;
      if (line && (top < this.area.scrollTop || top > this.area.scrollTop + sight - 2 * HEIGHT)) this.area.scrollTop = Math.max(0, top - sight / 2);
      this.place();
    }

    // Selects a line, so that it can be written over.
    select(line, kind = "fault") {
      const from = this.rows.slice(0, line - 1).reduce((length, it) => length + it.length + 1, 0);
      this.area.focus({ preventScroll: true });
      this.area.setSelectionRange(from, from + (this.rows[line - 1] ?? "").length);
      this.mark(line, kind);
    }
  }

  class Editors {
    // `changed` is called when somebody writes.
    constructor(changed) {
      const of = (id) => new Editor(dsmon.at(id).closest(".editor"), changed);
      Object.assign(this, { policy: of("policy"), source: of("source"), input: of("input"), sources: {}, shownSource: "" });
      this.names = dsmon.at("sources");
      this.names.onchange = () => this.show(this.names.value);
    }

    load({ policy, sources, input }) {
      this.sources = { ...sources };
      this.shownSource = "";
      this.policy.text = policy;
      this.input.text = input;
      this.list();
      this.show(Object.keys(this.sources)[0] ?? "");
    }

    list() { this.names.replaceChildren(...Object.keys(this.sources).map((it) => dsmon.element("option", { value: it }, it))); }

    // What is written is kept before another source is shown.
    keep() { if (this.shownSource) this.sources[this.shownSource] = this.source.text; }

    show(name) {
      if (name === this.shownSource) return;
      this.keep();
      this.shownSource = name;
      this.source.text = this.sources[name] ?? "";
      this.source.area.disabled = !name;
      this.names.value = name;
    }

    // An empty source of this name, where there is none.
    add(name) {
      if (Object.hasOwn(this.sources, name)) return;
      this.keep();
      this.sources[name] = "";
      this.list();
      this.show(name);
    }

    // All that a run reads, by the names that the words have.
    files() {
      this.keep();
      return { ...this.sources, [POLICY]: this.policy.text, [INPUT]: this.input.text };
    }

    texts() {
      this.keep();
      return { policy: this.policy.text, sources: { ...this.sources }, input: this.input.text };
    }

    // Puts the bar at a line of a source, of which other sources are then not shown.
    markSource(name, line) {
      if (line && Object.hasOwn(this.sources, name)) this.show(name);
      this.source.mark(name === this.shownSource ? line : 0);
    }

    // Selects the line that a refusal names, and says whether it names one.
    showFault(told) {
      const input = /^dsmon: 20 InputFault (\d+)/m.exec(told), policy = /^in line (\d+)(?:, column \d+)? of the policy/m.exec(told), source = /^dsmon: [3-7] \w+ (\S+) (\d+)/m.exec(told);
      if (input) this.input.select(+input[1]);
      else if (policy) this.policy.select(+policy[1]);
      else if (source && Object.hasOwn(this.sources, source[1])) {
        this.show(source[1]);
        this.source.select(+source[2]);
      }
      return !!(input || policy || source);
    }

    // Selects a rule of the policy by its number, or its line with this key; or a command of the input.
    showRule(number, key) {
      if (number > dsmon.FIRST_COMMAND_RULE) return this.showCommand(number - dsmon.FIRST_COMMAND_RULE);
      const rows = this.policy.rows, found = ruleLine(rows, number);
      if (found) this.policy.select(keyLine(rows, found, key) || found, "now");
    }

    showCommand(number) {
      const commands = this.input.rows.map((it, k) => [it, k + 1]).filter(([it]) => /^\d+ (?!key )/.test(it));
      if (commands[number - 1]) this.input.select(commands[number - 1][1], "now");
    }
  }

  // The line of a policy where a rule stands: its number of `[[rule]]`, or of braces from `rule = [` on. From 1; 0 where it is not found.
  function ruleLine(rows, number) {
    let count = 0, inArray = false;
    for (let k = 0; k < rows.length; k += 1) {
      if (/^\s*rule\s*=\s*\[/.test(rows[k])) inArray = true;
      const here = inArray ? (rows[k].replace(/#.*/, "").match(/\{/g) ?? []).length : /^\s*\[\[\s*rule\s*\]\]/.test(rows[k]) ? 1 : 0;
      count += here;
      if (here && count >= number) return k + 1;
    }
    return 0;
  }

  // The line of a table's key, where it has one of its own; 0 where it has none. The table begins at line `first`.
  function keyLine(rows, first, key) {
    for (let k = first; k < rows.length && !/^\s*[[\]]/.test(rows[k]); k += 1) if (key && new RegExp(`^\\s*${key}\\s*=`).test(rows[k])) return k + 1;
    return 0;
  }

  Object.assign(dsmon, { Editors, POLICY, INPUT, ruleLine, keyLine });
})(globalThis.dsmon ||= {});
