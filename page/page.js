// The page: what its buttons do.
"use strict";
(function (dsmon) {
  const { at, element } = dsmon;
  const FIRST = "denied_store";
  const LOADING = "loading";
  // So many lines of what happened are drawn.
  const MOST_DRAWN = 100_000;
  const ACTS = ["trace", "run", "check", "list", "bare"];
  const MISSING = /^dsmon: 26 Unreadable (.+)\n/;
  const SHORTER = "--only switches";
  const TRACE_WAYS = {
    unit: "time",
    lanes: dsmon.traceLanes,
    told: dsmon.told,
    moment: dsmon.traceMoment,
    isDenial: (it) => !!it && it.kind === "denied",
    key: [["bar runs", "runs"], ["bar ready", "ready"], ["bar waiting", "waits"], ["bar parked", "parked"], ["bar write", "may write"], ["bar read", "may read"], ["bar none", "may do nothing"], ["bar read give", "may give it on"],
      ["mark denied", "denied"], ["mark give", "gives"], ["mark take", "takes, drops"], ["mark call", "another call"], ["mark store", "stores"], ["mark command", "operator"], ["mark refused", "refused"], ["mark end", "right ends"]],
  };
  const BARE_WAYS = {
    unit: "instruction",
    lanes: dsmon.bareLanes,
    told: dsmon.bareTold,
    moment: dsmon.bareMoment,
    isDenial: (it) => !!it && it.parts.some((part) => part.kind === "exception"),
    key: [["bar kernel", "kernel's half"], ["bar refill", "the handler at 80000000"], ["bar user", "user's half"], ["bar write", "slot that may be written (D)"], ["bar read", "may be read (V)"], ["bar none", "not valid"], ["mark exception", "exception"], ["mark writes", "slot is written"], ["mark store", "stores"]],
  };

  // What these write has bytes that guests put.
  const OF_GUESTS = ["trace", "run", "bare"];
  const plainText = (bytes) => new TextDecoder().decode(bytes);
  const ENTRIES = "--entries";
  const flags = () => at("flags").value.trim().split(/\s+/).filter((it) => it && it !== ENTRIES);

  class Page {
    constructor() {
      this.program = new dsmon.Program();
      this.editors = new dsmon.Editors(() => this.changed());
      this.lines = new dsmon.Lines(at("lines"), (line) => { if (this.view.history) this.view.go(this.view.history.stopAtLine(line)); });
      this.view = new dsmon.View({ choose: (it) => this.operator.choose(it), tell: (history, stop) => this.tell(history, stop), showRule: (rule, key) => this.editors.showRule(rule, key) });
      this.operator = new dsmon.Operator(at("operator"), (line) => this.addLine(line));
      this.places = new Map();
      for (const act of ACTS) at(act).onclick = () => this.act(act);
      at("stop").onclick = () => this.program.stop();
      at("examples").onchange = () => this.open({ example: at("examples").value });
      at("link").onclick = () => this.link();
      at("print").onclick = () => print();
      at("save").onclick = () => this.save();
      at("keys").onclick = () => at("help").showModal();
      addEventListener("hashchange", async () => { if (location.hash !== this.hash) this.open(await dsmon.stateOf(location.hash)); });
      addEventListener("beforeprint", () => this.printed());
    }

    async begin() {
      const groups = [...new Set(dsmon.examples.map((it) => it.group))], named = (label) => dsmon.examples.filter((it) => it.group === label).map((it) => element("option", {}, it.name));
      at("examples").replaceChildren(...groups.map((label) => element("optgroup", { label }, ...named(label))));
      at("made").textContent = `Made of ${dsmon.made.proved === "yes" ? "the proved program" : "a build without a proof"}, commit ${dsmon.made.commit}, ${dsmon.made.kit}.`;
      this.hash = location.hash;
      const state = await dsmon.stateOf(location.hash);
      this.load(state);
      try {
        this.busy(true, LOADING);
        await this.program.start();
      } catch (why) {
        this.busy(false);
        for (const act of ACTS) at(act).disabled = true;
        return this.say(`This browser can't run it: ${why.message}.`, true);
      }
      this.busy(false);
      await this.act(this.wanted(state), state.time);
    }

    // What is done with texts that are new here.
    wanted({ act }) { return ACTS.includes(act) ? act : this.example?.command ?? "trace"; }

    // Puts texts into the editors: those of a link, or of an example.
    load(state) {
      const chosen = state.policy === undefined ? dsmon.examples.find((it) => it.name === state.example) ?? dsmon.examples.find((it) => it.name === FIRST) : null;
      const { policy, sources, input, ticks, flags: given } = chosen ?? state;
      this.example = chosen;
      this.editors.load({ policy, sources, input });
      at("ticks").value = ticks;
      at("flags").value = given;
      at("examples").value = chosen ? chosen.name : "";
      at("about").textContent = chosen ? chosen.about : "Texts from a link.";
      this.nothing(state.broken ? "The link is not whole, so an example is shown." : "");
    }

    // Opens an example or a link. What runs is ended.
    async open(state) {
      this.hash = location.hash;
      if (!at("stop").disabled) await this.program.stop();
      this.load(state);
      await this.act(this.wanted(state), state.time);
    }

    // Takes away what was shown of a run.
    nothing(told = "", isBad = false) {
      document.body.classList.remove("old");
      this.view.show(null);
      this.editors.markSource("", 0);
      this.lines.show("");
      this.operator.offer([]);
      this.text = "";
      this.bytes = undefined;
      this.say(told, isBad);
    }

    // The texts were changed: what is shown is of those before.
    changed() {
      document.body.classList.add("old");
      this.say("The texts have changed, and what is shown is of the texts before: Trace shows what they do now.");
    }

    say(text, isBad = false) {
      at("said").className = isBad ? "bad" : "";
      at("said").replaceChildren(...dsmon.worded(text));
    }

    // Offers a trace with fewer lines.
    offerShorter() {
      const act = () => {
        at("flags").value = SHORTER;
        this.act("trace");
      };
      at("said").append(" ", element("button", { type: "button", onclick: act }, `Trace with ${SHORTER}`));
    }

    busy(isBusy, what = "") {
      for (const act of ACTS) at(act).disabled = isBusy;
      at("stop").disabled = !isBusy || what === LOADING;
      clearInterval(this.clock);
      const began = performance.now(), tell = () => { at("state").textContent = isBusy ? `${what} ${((performance.now() - began) / 1000).toFixed(0)} s` : ""; };
      tell();
      if (isBusy) this.clock = setInterval(tell, 500);
    }

    wordsOf(act) {
      const ticks = at("ticks").value.trim(), { POLICY, INPUT } = dsmon;
      const keys = this.editors.input.rows.some((it) => it && !it.startsWith("#")) ? ["--keys", INPUT] : [];
      return {
        trace: ["trace", POLICY, INPUT, ticks, ENTRIES, ...flags()],
        run: ["run", POLICY, INPUT, ticks],
        check: ["check", POLICY, INPUT],
        list: ["list", this.editors.shownSource],
        bare: ["bare", this.editors.shownSource, ticks, ...keys],
      }[act];
    }

    // Asks the program for what a button says, and shows the answer, at a time if one is named.
    async act(act, time) {
      if (at(act).disabled) return;
      this.busy(true, "running");
      try {
        await this.show(act, time);
      } catch (why) {
        this.nothing(`The page failed: ${why.stack ?? why}`, true);
      } finally {
        this.busy(false);
        this.done = act;
      }
    }

    async show(act, time) {
      const words = this.wordsOf(act), answer = await this.program.call(words, this.editors.files());
      if (answer.stopped) return this.say("Stopped.");
      if (answer.failed) return this.nothing(`The program failed: ${answer.failed}`, true);
      if (answer.status === 1 || answer.status === 2) return this.refused(act, plainText(answer.err));
      document.body.classList.remove("old");
      const areBytes = OF_GUESTS.includes(act);
      this.bytes = answer.out;
      this.text = (areBytes ? dsmon.bytesText : plainText)(answer.out);
      this.view.show(null);
      this.lines.show(this.text, areBytes);
      const cut = answer.status === 3 ? this.cutShort(plainText(answer.err)) : "";
      if (act === "trace") await this.showTrace(time);
      if (act === "bare") await this.showBare(time);
      if (act === "run") at("moment").append(dsmon.consolesBox("Consoles", dsmon.endOf(this.text).consoles));
      const told = `\`dsmon ${words.join(" ")}\` wrote ${this.lines.lines.length} lines in ${answer.milliseconds.toFixed(0)} ms.`;
      this.say([cut, this.atAGlance(act), told].filter(Boolean).join(" "), !!cut);
      if (act === "trace" && (cut || this.view.history.trace.left) && !flags().includes("--only")) this.offerShorter();
    }

    // A refusal, with how it is mended: what only one line tells, `check` and `list` tell with the reason.
    async refused(act, told) {
      const missing = MISSING.exec(told);
      if (missing) return this.openMissing(told, missing[1]);
      const asked = { run: "check", trace: "check", bare: "list" }[act];
      const more = asked && !told.startsWith("error") ? plainText((await this.program.call(this.wordsOf(asked), this.editors.files())).err ?? new Uint8Array()) : "";
      const keysAlone = act === "bare" && told.startsWith("dsmon: 20 ") ? "\nBare takes `key` lines alone: without a policy there is no process and no page that a command could name." : "";
      this.nothing(`${more || told}${keysAlone}`, true);
      this.editors.showFault(more || told);
    }

    // A source that is missing gets an empty editor, and so does each other one that is.
    async openMissing(told, first) {
      const names = [];
      for (let name = first; name && !Object.hasOwn(this.editors.sources, name); ) {
        this.editors.add(name);
        names.push(name);
        name = MISSING.exec(plainText((await this.program.call(this.wordsOf("check"), this.editors.files())).err ?? new Uint8Array()))?.[1];
      }
      if (names.length) this.editors.show(names[0]);
      this.nothing(`${told.trim()}\nThe policy names ${names.join(" and ")}, which is not here yet: write it into the editor that has been opened for it.`, true);
    }

    cutShort(told) {
      const mib = (bytes) => `${bytes / (1 << 20)} MiB`;
      const why = /23 WriteFault/.test(told) ? `more text than ${mib(dsmon.LIMITS.text)} came` : /25 Memory/.test(told) ? `it asked for more memory than ${mib(dsmon.LIMITS.memory)}` : told.trim();
      return `The run was cut short: ${why}. Take fewer ticks, or a flag as \`${SHORTER}\` or \`--from 100 --to 200\`.`;
    }

    async showTrace(time) {
      const read = dsmon.readTrace(this.text, MOST_DRAWN), files = this.editors.files();
      const explained = dsmon.readCheck(plainText((await this.program.call(this.wordsOf("check"), files)).out ?? new Uint8Array()));
      await this.listSources();
      const history = new dsmon.History(read, explained, flags().join(" "), files[dsmon.POLICY]);
      this.operator.offer([...new Set([...explained.names.values(), ...history.pageNames.values()])]);
      this.view.show(history, TRACE_WAYS);
      if (time !== undefined && !Number.isNaN(time)) this.view.go(history.stopAtTime(time));
    }

    async showBare(time) {
      await this.listSources();
      const history = new dsmon.BareHistory(dsmon.readBare(this.text, MOST_DRAWN), this.editors.shownSource);
      this.view.show(history, BARE_WAYS);
      if (time !== undefined && !Number.isNaN(time)) this.view.go(history.stopAtTime(time));
    }

    // Where the lines of each source lie in its image.
    async listSources() {
      this.places.clear();
      const files = this.editors.files();
      for (const name of Object.keys(this.editors.sources)) {
        const answer = await this.program.call(["list", name], files);
        if (answer.status === 0) this.places.set(name, dsmon.readList(plainText(answer.out)));
      }
    }

    // What a run comes to, before its lines are read.
    atAGlance(act) {
      const history = this.view.history;
      if (!history) return act === "check" ? "A run of these texts would begin." : "";
      const left = history.trace.left ? ` Only the first ${MOST_DRAWN} lines are drawn.` : "";
      if (act === "bare") return `${history.trace.ending}.${left}`;
      const denials = this.view.denials.length, { log, time } = history.trace, count = (number, what) => `${number} ${what}${number > 1 ? "s" : ""}`;
      const refused = log.filter((it) => /^\d+ command /.test(it)).length, logged = log.length - refused;
      const told = denials ? `${count(denials, "denial")}: the first is shown.` : logged ? `The log has ${count(logged, "denial")}, which the lines that were asked for leave out.` : `Nothing is denied${this.isOver() ? "" : ` up to time ${time}, when the ticks were over`}.`;
      return `${told}${refused ? ` ${count(refused, "command")} refused: the line \`command .. refused\` on the right has why, when it is clicked.` : ""}${left}`;
    }

    // Whether each process has ended, as the last lines of the trace have it.
    isOver() { return !this.view.history.trace.lines.some((it) => /^process \d+ (?!ended)/.test(it)); }

    // Shows a moment in the text and in the source.
    tell(history, stop) {
      const event = history.eventAt(stop);
      this.lines.mark(event ? event.line : -1);
      const place = history.placeAt(stop), line = place && this.places.get(place.source)?.get(place.at);
      this.editors.markSource(place?.source, line ?? 0);
    }

    // A line of the input that was asked for by a click: the run is traced anew, and the moment stays.
    async addLine(line) {
      const made = dsmon.withLine(this.editors.input.text, line), time = this.view.history ? this.view.time : undefined;
      this.editors.input.text = made.text;
      await this.act(this.done === "bare" ? "bare" : "trace", time);
      this.editors.input.mark(made.line);
    }

    async link() {
      const state = { ...this.editors.texts(), ticks: at("ticks").value, flags: at("flags").value, act: ACTS.includes(this.done) ? this.done : "trace", time: this.view.history ? this.view.time : undefined };
      this.hash = `#${await dsmon.linkOf(state)}`;
      history.replaceState(null, "", this.hash);
      const isCopied = await navigator.clipboard?.writeText(location.href).then(() => true, () => false);
      this.say(`The link is in the address bar${isCopied ? ", and copied" : ""}. It holds the three texts: ${location.href.length} characters.`);
    }

    save() {
      const url = URL.createObjectURL(new Blob([this.bytes ?? ""])), it = element("a", { href: url, download: "dsmon.txt" });
      it.click();
      URL.revokeObjectURL(url);
    }

    // On paper the texts stand whole.
    printed() {
      const { policy, sources, input } = this.editors.texts(), part = (title, text) => [element("h2", {}, title), element("pre", {}, text)];
      at("printed").replaceChildren(...part("Policy", policy), ...Object.entries(sources).flatMap(([name, text]) => part(name, text)), ...part("Input", input));
    }
  }

  Object.assign(dsmon, { Page });
})(globalThis.dsmon ||= {});
