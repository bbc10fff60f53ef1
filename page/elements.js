// Makes elements of the page. What a text says never becomes markup.
"use strict";
(function (dsmon) {
  const CHUNK = 8192;
  const CONTROLS = /[\x00-\x08\x0b-\x1f\x7f-\x9f]/g, NOT_ASCII = /[^\n\x20-\x7e]/g;

  // An element with attributes, listeners (`onclick`) and what is in it: elements and texts; nothing stands for nothing.
  function element(tag, attributes = {}, ...children) {
    const made = document.createElement(tag);
    for (const [name, value] of Object.entries(attributes)) {
      if (typeof value === "function") made[name] = value;
      else if (value === true) made.setAttribute(name, "");
      else if (value !== undefined && value !== false && value !== null) made.setAttribute(name, value);
    }
    made.append(...children.flat().filter((it) => it !== null && it !== undefined && it !== false));
    return made;
  }

  // A text whose pieces in backticks are code.
  function worded(text) {
    return text.split("`").map((it, k) => (k % 2 ? element("code", {}, it) : it));
  }

  const at = (id) => document.getElementById(id);

  // Bytes as a text, of which each character is a byte.
  function bytesText(bytes) {
    let text = "";
    for (let at = 0; at < bytes.length; at += CHUNK) text += String.fromCharCode(...bytes.subarray(at, at + CHUNK));
    return text;
  }

  // A text as a page can show it: control characters by their numbers; where characters are bytes, all that are not ASCII.
  const shown = (text, areBytes) => text.replace(areBytes ? NOT_ASCII : CONTROLS, (it) => `\\x${it.charCodeAt(0).toString(16).padStart(2, "0")}`);

  Object.assign(dsmon, { element, worded, at, bytesText, shown });
})(globalThis.dsmon ||= {});
