// What keys do outside the editors.
"use strict";
(function (dsmon) {
  const STEPS = { ArrowLeft: "back", ArrowRight: "on", Home: "first", End: "final", "+": "closer", "=": "closer", "-": "wider", 0: "whole" };
  const DENIALS = { ArrowLeft: "before", ArrowRight: "after" };

  const isWritten = (target) => target.closest("textarea, select, input:not([type=range]), dialog[open]");

  function listen(page) {
    addEventListener("keydown", (event) => {
      if (event.key === "Enter" && (event.ctrlKey || event.metaKey)) return page.act("trace");
      if (event.key === "Escape" && !dsmon.at("stop").disabled) return dsmon.at("stop").click();
      if (event.ctrlKey || event.metaKey || event.altKey || isWritten(event.target)) return undefined;
      if (event.key === "?") return dsmon.at("keys").click();
      const button = (event.shiftKey && DENIALS[event.key]) || STEPS[event.key];
      if (!button || !page.view.history) return undefined;
      event.preventDefault();
      return dsmon.at(button).click();
    });
  }

  Object.assign(dsmon, { listen });
})(globalThis.dsmon ||= {});
