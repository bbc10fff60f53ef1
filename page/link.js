// A link that holds the texts: what stands after `#` is enough to open the page as it is.
"use strict";
(function (dsmon) {
  const toText = (bytes) => btoa(Array.from(bytes, (it) => String.fromCharCode(it)).join("")).replace(/\+/g, "-").replace(/\//g, "_").replace(/=+$/, "");
  const toBytes = (text) => Uint8Array.from(atob(text.replace(/-/g, "+").replace(/_/g, "/")), (it) => it.charCodeAt(0));

  async function through(bytes, stream) {
    return new Uint8Array(await new Response(new Blob([bytes]).stream().pipeThrough(stream)).arrayBuffer());
  }

  // What follows `#` in a link that holds all this. An engine without compression writes it as it is.
  async function linkOf(state) {
    const bytes = new TextEncoder().encode(JSON.stringify(state));
    if (typeof CompressionStream !== "function") return `texts=${toText(bytes)}`;
    return `packed=${toText(await through(bytes, new CompressionStream("deflate-raw")))}`;
  }

  // What such a link holds: texts, or the name of an example, with what to do and where to look. An empty object where it is none.
  async function stateOf(hash) {
    const words = new URLSearchParams(hash.replace(/^#/, ""));
    const asked = { example: words.get("example") ?? undefined, act: words.get("act") ?? undefined, time: words.has("time") ? +words.get("time") : undefined };
    try {
      if (words.has("packed")) return { ...asked, ...read(await through(toBytes(words.get("packed")), new DecompressionStream("deflate-raw"))) };
      if (words.has("texts")) return { ...asked, ...read(toBytes(words.get("texts"))) };
    } catch {
      return { ...asked, broken: true };
    }
    return asked;
  }

  // Only texts are taken from a link.
  function read(bytes) {
    const { policy, sources, input, ticks, flags, act, time } = JSON.parse(new TextDecoder().decode(bytes));
    const texts = Object.fromEntries(Object.entries(sources).map(([name, it]) => [String(name), String(it)]));
    return { policy: String(policy), sources: texts, input: String(input), ticks: String(ticks), flags: String(flags), act: String(act), time: Number(time) };
  }

  Object.assign(dsmon, { linkOf, stateOf });
})(globalThis.dsmon ||= {});
