// Draws lanes: bars and marks over time, and a moment among them.
"use strict";
(function (dsmon) {
  const SVG = "http://www.w3.org/2000/svg";
  const LEFT = 210, RIGHT = 14, TOP = 22, LANE = 19, GAP = 9;
  // So many lanes are drawn, and in each so many pixels' marks; what is more is told.
  const MOST_LANES = 400;
  const LETTER = 6.9;
  // Bars differ by their heights too, for eyes and projectors that lose colours.
  const HEIGHTS = { runs: 13, ready: 5, waiting: 5, parked: 9, ended: 2, write: 12, read: 7, none: 3, kernel: 5, refill: 13, user: 9 };

  function svg(tag, attributes = {}, ...children) {
    const made = document.createElementNS(SVG, tag);
    for (const [name, value] of Object.entries(attributes)) if (value !== undefined && value !== false) made.setAttribute(name, value);
    made.append(...children);
    return made;
  }

  const titled = (tag, attributes, told) => svg(tag, attributes, ...(told ? [svg("title", {}, told)] : []));
  const short = (text, most) => (text.length > most ? text.slice(0, most - 1) + "…" : text);

  // Times at which a line is drawn: at most ten of them, at round numbers.
  function ticksOf(from, to) {
    const rough = (to - from) / 10, power = 10 ** Math.floor(Math.log10(Math.max(rough, 1)));
    const step = [1, 2, 5, 10].map((it) => it * power).find((it) => it >= rough);
    const found = [];
    for (let time = Math.ceil(from / step) * step; time <= to; time += step) found.push(time);
    return found;
  }

  // The path of a mark of each kind, around its middle.
  const PATHS = {
    denied: "M-5 -5 L5 5 M-5 5 L5 -5",
    exception: "M-5 -5 L5 5 M-5 5 L5 -5",
    command: "M0 3 L-5 -6 L5 -6 Z",
    refused: "M0 3 L-5 -6 L5 -6 Z",
    give: "M-4 -5 L5 0 L-4 5 Z",
    take: "M4 -5 L-5 0 L4 5 Z",
    drop: "M-4 -4 L4 -4 L0 5 Z",
    end: "M0 -8 L0 8",
    key: "M-3 -5 L3 -5 L3 5 L-3 5 Z",
    store: "M0 -3 L0 3",
    call: "M0 -3.5 A3.5 3.5 0 1 1 -0.01 -3.5 Z",
    writes: "M-4 -5 L5 0 L-4 5 Z",
  };

  class Drawing {
    constructor(picture, view) {
      Object.assign(this, { picture, view, y: TOP });
      this.scale = (view.width - LEFT - RIGHT) / (view.to - view.from);
      this.parts = [];
      // Each mark by its line, with where it stands, and whether its label is drawn.
      this.places = new Map();
    }

    x(time) { return LEFT + (time - this.view.from) * this.scale; }
    sees(from, to = from) { return to >= this.view.from && from <= this.view.to; }

    bar(it, middle) {
      const from = Math.max(this.x(it.from), LEFT), to = Math.min(this.x(it.to), this.view.width - RIGHT);
      const height = HEIGHTS[it.kind];
      const attributes = { x: from, y: middle - height / 2, width: Math.max(to - from, 0.8), height, class: `bar ${it.kind}${it.give ? " give" : ""}`, "data-line": it.line };
      this.parts.push(titled("rect", attributes, `${it.told}, from ${it.from} to ${it.to}`));
    }

    // A bar that is thinner than a pixel, and at the pixel of the one before, is left out.
    bars(list, middle) {
      const drawn = new Map();
      for (const it of list.filter((bar) => this.sees(bar.from, bar.to))) {
        const pixel = Math.round(this.x(it.from));
        if ((it.to - it.from) * this.scale < 1 && drawn.get(it.kind) === pixel) continue;
        drawn.set(it.kind, pixel);
        this.bar(it, middle);
      }
    }

    // Of marks of one kind at one pixel the first is drawn.
    marks(list, middle) {
      const seen = list.filter((it) => this.sees(it.time)), drawn = new Map(), labelled = this.labels(seen.filter((it) => it.label), middle);
      for (const it of seen) {
        const pixel = Math.round(this.x(it.time));
        this.places.set(it.line, { mark: it, middle, isLabelled: labelled.has(it) });
        if (drawn.get(it.kind) === pixel) continue;
        drawn.set(it.kind, pixel);
        this.parts.push(this.mark(it, middle));
      }
    }

    mark(it, middle, more = "") {
      return titled("path", { d: PATHS[it.kind], transform: `translate(${this.x(it.time)} ${middle})`, class: `mark ${it.kind}${more}`, "data-line": it.line }, it.told);
    }

    label(it, middle, isLeft) {
      return svg("text", { x: this.x(it.time) + (isLeft ? -9 : 9), y: middle + 4, "text-anchor": isLeft ? "end" : "start", class: `label ${it.kind}` }, it.label);
    }

    // Words beside their marks, where there is room before the next or after the one before. Answers those that got theirs.
    labels(list, middle) {
      const drawn = new Set();
      let taken = LEFT;
      list.forEach((it, k) => {
        const x = this.x(it.time), next = k + 1 < list.length ? this.x(list[k + 1].time) - 8 : this.view.width - RIGHT;
        const wide = it.label.length * LETTER, fits = x + 9 + wide <= next, fitsBefore = x - 9 - wide >= taken;
        if (fits || fitsBefore) {
          this.parts.push(this.label(it, middle, !fits));
          drawn.add(it);
        }
        taken = fits ? x + 9 + wide : x + 8;
      });
      return drawn;
    }

    lane(it, isHead) {
      const middle = this.y + LANE / 2;
      const title = isHead ? it.title : `${it.title} ${short(it.detail, 27 - it.title.length)}`;
      this.parts.push(titled("text", { x: isHead ? 2 : 14, y: middle + 4, class: isHead ? "who" : "where" }, it.detail && `${it.title} ${it.detail}`));
      this.parts[this.parts.length - 1].prepend(title);
      this.parts.push(svg("line", { x1: LEFT, x2: this.view.width - RIGHT, y1: middle, y2: middle, class: "rail" }));
      this.bars(it.bars, middle);
      this.marks(it.marks, middle);
      this.y += LANE;
    }

    groups() {
      let lanes = 0, left = 0;
      for (const group of this.picture.groups) {
        if (lanes < MOST_LANES) this.lane(group, true);
        for (const it of group.lanes) {
          if (lanes < MOST_LANES) this.lane(it, false); else left += 1;
          lanes += 1;
        }
        this.y += GAP;
      }
      if (left) this.parts.push(svg("text", { x: 2, y: this.y + 8, class: "who" }, `${left} more lanes are not drawn: trace some processes alone, by --process P.`));
      this.y += left ? LANE : 0;
    }

    whole() {
      this.groups();
      this.bottom = Math.max(TOP, this.y - GAP);
      const grid = ticksOf(this.view.from, this.view.to).flatMap((time) => [
        svg("line", { x1: this.x(time), x2: this.x(time), y1: TOP - 4, y2: this.bottom, class: "grid" }),
        svg("text", { x: this.x(time), y: 12, class: "tick" }, String(time)),
      ]);
      const said = `Lanes from ${this.view.from} to ${this.view.to}`;
      this.now = svg("g");
      this.element = svg("svg", { width: this.view.width, height: this.y, viewBox: `0 0 ${this.view.width} ${this.y}`, role: "img", "aria-label": said }, ...grid, ...this.parts, this.now);
      return this;
    }

    // Shows a moment, and the mark of its line, with its words.
    choose(time, line) {
      const place = this.places.get(line), parts = [];
      if (this.sees(time)) parts.push(svg("rect", { x: this.x(time), y: TOP - 6, width: Math.max(2, this.scale), height: this.bottom - TOP + 6, class: "moment" }));
      if (place) parts.push(this.mark(place.mark, place.middle, " chosen"));
      if (place?.mark.label && !place.isLabelled) parts.push(this.label(place.mark, place.middle, this.x(place.mark.time) > (LEFT + this.view.width) / 2));
      this.now.replaceChildren(...parts);
    }
  }

  // The picture, drawn: its `element`, and `choose`, which shows a moment. `view` has the times that are shown, and the width.
  const drawLanes = (picture, view) => new Drawing(picture, view).whole();
  // The time at a place of the picture.
  const timeAt = (view, x) => Math.min(view.to, Math.max(view.from, view.from + (x - LEFT) * (view.to - view.from) / (view.width - LEFT - RIGHT)));

  Object.assign(dsmon, { drawLanes, timeAt, svg });
})(globalThis.dsmon ||= {});
