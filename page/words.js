// Lines of a trace as sentences, and what the log's denials mean and how they are mended.
"use strict";
(function (dsmon) {
  const NAMES = "zero at v0 v1 a0 a1 a2 a3 t0 t1 t2 t3 t4 t5 t6 t7 s0 s1 s2 s3 s4 s5 s6 s7 t8 t9 k0 k1 gp sp fp ra".split(" ");
  const FIRST_COMMAND_RULE = 1000;
  // Why a call or a command about grants is refused.
  const REFUSALS = {
    11: "Regions: its address would be in a fifth region of 4 MiB",
    12: "NoProcess: there is no such process, or it has ended",
    13: "NotPage: an address is not that of a page",
    14: "NoGrant: there is no entry at the address, or its right is none",
    15: "NotAllowed: that may not be done there",
    16: "Taken: an entry stands at that address already",
    17: "TableFull: the process has 256 entries",
    18: "NoFrames: as many pages live as the policy's frames",
    19: "NotGiven: somebody else gave it",
  };
  const MODES = { read: "shared for reading", write: "shared for writing", copy: "as a copy" };
  // Of a denial that no entry decides: what it is in short and in words, and what mends it.
  const BY_CODE = {
    "A 4": ["not aligned", "the address is not a multiple of the size", "Load a word from a multiple of four and a half from a multiple of two, or take `lwl` and `lwr`."],
    "A 5": ["not aligned", "the address is not a multiple of the size", "Store a word to a multiple of four and a half to a multiple of two, or take `swl` and `swr`."],
    "K 4": ["the kernel's", "the address is the kernel's", "Take an address below 80000000."],
    "K 5": ["the kernel's", "the address is the kernel's", "Take an address below 80000000."],
    "I 8": ["syscall in a slot", "a `syscall` stands in the slot of a branch", "Put it before the branch, or after the slot."],
    "I 9": ["break", "it is a `break`", "Leave it out."],
    "I 10": ["no instruction", "the word is no instruction for a process", "Often the program has run on into its text: end the code with the call `exit` or a jump."],
    "I 11": ["coprocessor", "it is an instruction of a coprocessor, and processes have none", "Leave it out."],
    "I 12": ["overflow", "the sum is past the end of the signed numbers", "Take `addu`, `addiu` or `subu`, which wrap."],
  };

  const register = (number) => `$${number} (${NAMES[number]})`;
  const character = (byte) => (byte > 32 && byte < 127 ? `\`${String.fromCharCode(byte)}\`` : byte === 32 ? "a blank" : byte === 10 ? "a line's end" : "the byte") + ` (${byte.toString(16).toUpperCase().padStart(2, "0")})`;
  const ruleNumber = (rule) => (/^r\d+$/.test(rule) ? +rule.slice(1) : -1);

  // What granted an entry or took its right: a rule of the policy, or a command.
  const granter = (rule) => (rule > FIRST_COMMAND_RULE ? `command ${rule - FIRST_COMMAND_RULE}` : `rule ${rule}`);

  // The same of a denial that an entry of the table decides, or that there is none, and the key of the rule that mends it. `entry`
  // is the one that stood there.
  function byEntry(event, entry) {
    const number = ruleNumber(event.rule), rule = granter(number), isCommand = number > FIRST_COMMAND_RULE;
    if (event.what === "give") return ["refused", "the call was refused", "Register 2 has the refusal's number. Often the rule has no `give = true`."];
    if (entry?.right === "gone") return [`gone since ${entry.time}`, `its entry at this page is gone since time ${entry.time}`, "It was taken back or dropped, or its process was stopped: grant it again, or leave that out."];
    if (!number && event.what === "fetch") return ["no entry", "it has no entry at this page", "Often the program has run past its end: end the code with the call `exit`. Or write a rule for this page."];
    if (!number) return ["no entry", "it has no entry at this page", `Write a rule for process ${event.process} at ${dsmon.pageOf(event.address)}, or mend the address.`];
    if (event.code === 1 && entry?.isNarrowed) return [`narrowed at ${entry.time}`, `a command narrowed its right to read, at time ${entry.time}`, "Leave that command out of the input, or drop the entry and grant it for writing."];
    if (event.code === 1 && entry?.giver) return [`${rule}: shared to read`, `process ${entry.giver} shared it for reading only (${rule})`, `Let process ${entry.giver} give it for writing, by mode 2.`];
    if (event.code === 1) return [`${rule}: read only`, `${rule} lets it only read there`, isCommand ? `Write \`write\` in ${rule} of the input.` : `Write \`right = "write"\` in ${rule}.`, "right"];
    if (isCommand) return [rule, `${rule} took its right away`, "Leave that command out of the input, or grant the page again."];
    if (entry?.ended) return [`${rule} ended at ${entry.ended}`, `its right by ${rule} ended at time ${entry.ended}`, "Write a later `until` in that rule, or none.", "until"];
    return [`${rule}: none`, `${rule} grants nothing there`, "Write another right in that rule.", "right"];
  }

  // A denial: what it says beside its cross, and as sentences; with the line of the entry that decided it, where a run made that.
  function denialOf(event, entry) {
    const [brief, why, mend, key] = BY_CODE[`${event.rule} ${event.code}`] ?? byEntry(event, entry);
    const what = { exec: "its instruction", give: `its call \`give\` of ${event.address}`, store: `a store to ${event.address}` }[event.what] ?? `a ${event.what} from ${event.address}`;
    const told = `At time ${event.time} process ${event.process}, at ${event.at}, was denied ${what}: ${why}.`;
    return { short: `${event.what === "exec" ? "" : `${event.what}, `}${brief}`, told, mend, rule: ruleNumber(event.rule), key, since: entry && !entry.isFirst ? entry : null };
  }

  function callOf(event) {
    const [first, second, third, mode] = event.words;
    const what = {
      exit: "ends itself",
      put: `puts ${character(parseInt(first, 16))} on its console line`,
      get: "asks for a character of its line",
      yield: "lets others run before it",
      time: "asks for the time",
      self: "asks for its own number",
      give: `gives its page at ${first} to process ${second}, at ${third}, ${MODES[mode] ?? `by mode ${mode}`}`,
      take: `takes back what process ${first} has at ${second}`,
      drop: `drops what it has at ${first}`,
      wait: "waits for a character of its line",
    }[event.name] ?? "makes a call that there is not";
    const answer = event.refusal ? `It is refused: ${REFUSALS[parseInt(event.answer, 16)] ?? event.refusal}.` : event.answer ? `The answer is ${event.answer}.` : "";
    return `Process ${event.process} ${what} (call \`${event.name}\`). ${answer}`;
  }

  function unitOf(event, isStopped) {
    const done = `Process ${event.process} ${isStopped ? "tries" : event.slot ? "does in the slot" : "does"} \`${event.instruction}\``;
    if (event.register) return `${done}; register ${register(event.register)} then holds ${event.value}.`;
    return event.word ? `${done}; the word at ${event.word} then holds ${event.value}.` : `${done}.`;
  }

  // An entry as it is from now on.
  function entryOf(event, history) {
    const who = `process ${event.process}`, name = history.nameOf(event), ended = history.endOf(event);
    if (ended) return `the right of ${who} at ${event.address} has ended, by ${granter(event.rule)}`;
    if (event.right === "gone") return `${who} has no entry at ${event.address} any more`;
    if (event.right === "none") return `${who} may do nothing at ${event.address}, by ${granter(event.rule)}`;
    const more = [event.giver && `process ${event.giver} gave it`, event.until && `until ${event.until}`, event.give && "it may give it on"].filter(Boolean);
    return `${who} may ${event.right === "write" ? "read and write" : "read"} ${name} at ${event.address}, by ${granter(event.rule)}${more.length ? ` (${more.join(", ")})` : ""}`;
  }

  const SENTENCES = {
    unit: (it, history, isStopped) => unitOf(it, isStopped),
    call: (it) => callOf(it),
    denied: (it, history) => denialOf(it, history.deciding(it)).told,
    command: (it) => `The operator's command ${it.command} is done: \`${it.verb} ${it.process}${it.address ? ` ${it.address}` : ""}\`.`,
    refused: (it) => `Command ${it.command} is refused: ${it.reason} ${REFUSALS[it.reason] ?? ""}.`,
    key: (it) => `On line ${it.console} comes in ${character(it.byte)}.`,
    lost: (it) => `${it.count} characters are lost.`,
    stands: (it) => `Process ${it.process} is ${it.state} from time ${it.time} on.`,
    "gives way": (it) => `Process ${it.process} gives way to the next.`,
    runs: (it) => (it.process ? `Process ${it.process} runs from time ${it.time} on.` : `Nobody runs from time ${it.time} on.`),
  };

  // What a stop of a history tells, as sentences.
  function told(history, stop) {
    const group = history.groupAt(stop), event = group[group.length - 1];
    if (!event) return "Nothing happened.";
    if (event.kind === "entry") {
      const begins = stop === 0 ? "At the start" : `From time ${event.time} on`;
      return group.length > 8 ? `${begins} ${group.length} entries are as the table has them.` : `${begins} ${group.map((it) => entryOf(it, history)).join("; ")}.`;
    }
    const next = history.eventAt(stop + 1);
    return SENTENCES[event.kind](event, history, !!next && next.kind === "denied" && next.time === event.time);
  }

  Object.assign(dsmon, { REGISTER_NAMES: NAMES, FIRST_COMMAND_RULE, REFUSALS, denialOf, granter, told, character });
})(globalThis.dsmon ||= {});
