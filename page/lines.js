// The program's text, line by line. Only the lines in sight are elements, so that a text may be long.
"use strict";
(function (dsmon) {
  const HEIGHT = 18;
  const MORE = 20;

  const kindOf = (line) => (line.startsWith("denied ") ? "denied" : line.split(" ", 2)[1] === "entry" ? "entry" : line.startsWith("dsmon: ") ? "denied" : "");

  class Lines {
    // Of an element that scrolls. `choose` is called with the number of a line that is clicked, from 0.
    constructor(box, choose) {
      Object.assign(this, { box, choose, lines: [], chosen: -1 });
      this.inner = dsmon.element("div", { class: "inner" });
      box.append(this.inner);
      box.onscroll = () => this.draw();
      box.onclick = (event) => { if (event.target.dataset.line) this.choose(+event.target.dataset.line); };
    }

    // Shows a text. `areBytes`: each of its characters is a byte.
    show(text, areBytes = false) {
      this.areBytes = areBytes;
      this.lines = text.split("\n");
      if (this.lines[this.lines.length - 1] === "") this.lines.pop();
      this.chosen = -1;
      this.box.scrollTop = 0;
      this.draw();
    }

    // Chooses a line, and scrolls to where it is in sight.
    mark(line) {
      this.chosen = line;
      const top = line * HEIGHT, sight = this.box.clientHeight;
      if (top < this.box.scrollTop + HEIGHT || top > this.box.scrollTop + sight - 3 * HEIGHT) this.box.scrollTop = Math.max(0, top - sight / 2);
      this.draw();
    }

    draw() {
      const first = Math.max(0, Math.floor(this.box.scrollTop / HEIGHT) - MORE), end = Math.min(this.lines.length, first + Math.ceil(this.box.clientHeight / HEIGHT) + 2 * MORE);
      this.inner.style.height = `${this.lines.length * HEIGHT}px`;
      this.inner.replaceChildren(...this.lines.slice(first, end).map((line, k) => {
        const number = first + k, classes = ["line", kindOf(line), number === this.chosen && "now"].filter(Boolean).join(" ");
        return dsmon.element("div", { class: classes, style: `top:${number * HEIGHT}px`, "data-line": number }, dsmon.shown(line, this.areBytes));
      }));
    }
  }

  Object.assign(dsmon, { Lines });
})(globalThis.dsmon ||= {});
