// Shows a history: the picture with its moment, what happened then in words, and what holds. It steps and zooms.
"use strict";
(function (dsmon) {
  const { at, element } = dsmon;
  const NEAREST = 8;
  const ZOOM = 2;

  class View {
    // `tell` shows where the moment is elsewhere on the page: it is called with a history and a stop.
    constructor({ choose, tell, showRule }) {
      Object.assign(this, { choose, tell, showRule, history: null, stop: 0 });
      at("picture").onclick = (event) => this.click(event);
      at("picture").addEventListener("wheel", (event) => this.wheel(event), { passive: false });
      at("slider").oninput = () => this.go(this.history.stopAtTime(+at("slider").value));
      const buttons = { first: () => this.go(0), back: () => this.step(-1), on: () => this.step(1), final: () => this.go(Infinity), before: () => this.toDenial(-1), after: () => this.toDenial(1), closer: () => this.zoom(ZOOM), wider: () => this.zoom(1 / ZOOM), whole: () => this.zoom(0) };
      for (const [id, act] of Object.entries(buttons)) at(id).onclick = () => this.history && act();
      this.buttons = buttons;
      addEventListener("resize", () => this.draw());
    }

    // Shows a history, with its lanes and its own way of telling; nothing where there is none.
    show(history, ways) {
      Object.assign(this, { history, ways, picture: history && ways.lanes(history), stop: 0 });
      at("seen").hidden = !history;
      at("moment").replaceChildren();
      if (!history) return;
      this.times = { from: history.from, to: history.to };
      Object.assign(at("slider"), { min: history.from, max: history.to });
      at("key").replaceChildren(...ways.key.map(([kind, words]) => element("span", {}, element("i", { class: kind }), words)));
      this.denials = this.deniedStops();
      at("before").disabled = at("after").disabled = !this.denials.length;
      this.draw();
      this.go(this.denials[0] ?? 0);
    }

    deniedStops() {
      return this.history.stops.flatMap((_, stop) => (this.ways.isDenial(this.history.eventAt(stop)) ? [stop] : []));
    }

    go(stop) {
      if (!this.history) return;
      this.stop = Math.max(0, Math.min(stop, this.history.stops.length - 1));
      const time = this.time;
      if (time < this.times.from || time > this.times.to) {
        this.center();
        this.draw();
      } else this.drawing.choose(time, this.event?.line);
      at("slider").value = time;
      at("now").textContent = `${this.ways.unit} ${time}`;
      this.words();
      at("moment").replaceChildren(...this.ways.moment(this.history, this.stop, this.choose));
      this.choose({ time, ...this.about() });
      this.tell(this.history, this.stop);
    }

    get event() { return this.history.eventAt(this.stop); }
    get time() { return this.event ? this.event.time : this.history.from; }

    // The process and the page of the moment, for the operator.
    about() {
      const { process, kind, address, what } = this.event ?? {};
      if (kind === "entry") return { process, address: dsmon.pageOf(address) };
      if (kind !== "denied") return { process };
      const entry = this.history.deciding(this.event);
      return { process, address: dsmon.pageOf(address), page: entry && this.history.nameOf(entry), right: what === "store" ? "write" : "read" };
    }

    step(by) { this.go(this.stop + by); }

    toDenial(by) {
      const next = by > 0 ? this.denials.find((it) => it > this.stop) : [...this.denials].reverse().find((it) => it < this.stop);
      if (next !== undefined) this.go(next);
    }

    // Shows a shorter or a longer time around the moment; by 0 the whole.
    zoom(by) {
      const { from, to } = this.history, wide = by ? (this.times.to - this.times.from) / by : Infinity;
      if (wide >= to - from) this.times = { from, to };
      else {
        this.times = { from: 0, to: Math.max(NEAREST, wide) };
        this.center();
      }
      this.draw();
    }

    // Moves what is shown so that the moment is in its middle.
    center() {
      const { from, to } = this.history, wide = this.times.to - this.times.from, start = Math.max(from, Math.min(this.time - wide / 2, to - wide));
      this.times = { from: Math.floor(start), to: Math.floor(start) + wide };
    }

    draw() {
      if (!this.history) return;
      const box = at("picture"), top = box.scrollTop;
      this.drawn = { ...this.times, width: Math.max(560, box.clientWidth - 4) };
      this.drawing = dsmon.drawLanes(this.picture, this.drawn);
      box.replaceChildren(this.drawing.element);
      box.scrollTop = top;
      this.drawing.choose(this.time, this.event?.line);
    }

    words() {
      const event = this.event, denial = event && event.kind === "denied" ? dsmon.denialOf(event, this.history.deciding(event)) : null;
      at("told").className = this.ways.isDenial(event) ? "denied" : "";
      at("told").replaceChildren(element("p", {}, ...dsmon.worded(this.ways.told(this.history, this.stop))), ...(denial ? [element("p", {}, ...dsmon.worded(denial.mend), ...this.buttonsOf(denial))] : []));
    }

    // What leads to the cause of a denial: the rule or the command, and the time from which on the entry is so.
    buttonsOf({ rule, key, since }) {
      const button = (words, act) => [" ", element("button", { type: "button", onclick: act }, words)];
      const shows = rule > 0 ? button(`Show ${dsmon.granter(rule)}`, () => this.showRule(rule, key)) : [];
      return [...shows, ...(since ? button(`Show time ${since.time}`, () => this.go(this.history.stopAtLine(since.line))) : [])];
    }

    // With Ctrl the wheel zooms; so two fingers do on many devices.
    wheel(event) {
      if (!event.ctrlKey || !this.history) return;
      event.preventDefault();
      this.zoom(event.deltaY < 0 ? ZOOM : 1 / ZOOM);
    }

    // A mark or a bar that is clicked leads to its line, any other place to its time.
    click(event) {
      if (!this.history) return;
      const line = event.target.dataset.line, x = event.clientX - at("picture").getBoundingClientRect().left + at("picture").scrollLeft;
      const isMark = event.target.classList.contains("mark");
      this.go(isMark ? this.history.stopAtLine(+line) : this.history.stopAtTime(dsmon.timeAt(this.drawn, x)));
    }
  }

  Object.assign(dsmon, { View });
})(globalThis.dsmon ||= {});
