#!/usr/bin/env python3
"""What `dsmon trace` and `dsmon run` write, by a plain model, and whether the rows and cases have just that.

    tools/trace_model.py FOLDER WORDS..   prints the trace that the words after `dsmon` ask for, with names looked up from FOLDER
    tools/trace_model.py --check          names each text of a row or case of crates/rows/data whose words begin with `trace` or `run`, where it differs
    tools/trace_model.py --write          writes each of them anew

It is written after docs/trace.md, over tools/hostile_model.py, and shares nothing with the program; what the processor did is from
tools/processor_model.py. It has no touch, so it stops with NotQuiet at a guest that could tell.
"""
import re
import sys
import tomllib
from collections import Counter, namedtuple

import case_files
from case_files import files_in
from grants_model import NUMBERS
from hostile_model import CODES, LOADS, STORES, Hostile, NotQuiet, decode, encode, signed
from processor_model import Processor
from turns_model import MASK, NAMES, UNKNOWN, Denied, operands

BRANCHES = ("beq", "bne", "blez", "bgtz", "bltz", "bgez", "bltzal", "bgezal")
LINKS, JUMPS = {"jal": 31, "bltzal": 31, "bgezal": 31}, ("j", "jal", "jr", "jalr", *BRANCHES)
SYSTEM_WORDS = {"tlbr": 0x4200_0001, "tlbwi": 0x4200_0002, "tlbwr": 0x4200_0006, "tlbp": 0x4200_0008, "rfe": 0x4200_0010}
HALVES, HIDDEN = ("andi", "ori", "xori", "lui"), (0, 26, 27)
CALLS = "exit put get yield time self give take drop wait unknown".split()
GIVE, COPY = 6, 3
REFUSALS, COMMON = {number: name for name, number in NUMBERS.items()}, list(NAMES)
MODES = {1: "read", 2: "write", 3: "copy"}
MOST_TURNS = 60_000
SWITCHES = {"processor", "entries", "source", "names", "summary", "must-end", "inside", "quiet", "matches", "counts"}  # flags without a value
# What is told of a run: from when on and until when, of which processes (of all, where there is none), of which kind alone, with what besides, and the start of Random.
View = namedtuple("View", "begin end processes only processor entries source names random", defaults=(0, 2**63, frozenset(), None, *[False] * 4, 63))


def asked(words):
    """The words that are no flags, and the flags, each with its values: one stands after its flag, or after an equals sign. A switch has none."""
    left, names, flags = iter([part for word in words for part in word.split("=")]), [], {}
    for it in left:
        if it.startswith("--"):
            flags.setdefault(it[2:], []).extend([] if it[2:] in SWITCHES else [next(left)])
        else:
            names.append(it)
    return names, flags


def number(flags, flag, other):
    """The number after a flag, or another one."""
    return int(flags[flag][-1]) if flag in flags else other


def view_of(flags):
    window, switches = (number(flags, "from", 0), number(flags, "to", 2**63)), (it in flags for it in ("processor", "entries", "source", "names"))
    return View(*window, frozenset(map(int, flags.get("process", ()))), flags.get("only", [None])[-1], *switches, number(flags, "random", 63))


def lines_of(text):
    """Of each line of a source where it begins and ends in the image, its labels, and the name and the operands of its statement."""
    at = 0
    for line in text.splitlines():
        labels, said = re.fullmatch(r"((?:\w+:\s*)*)(.*)", line.split("#")[0].strip()).groups()
        name, _, rest = said.partition(" ")
        end = at + {"": 0, ".byte": 1}.get(name, int(rest, 0) if name == ".space" else 4)
        yield at, end, re.findall(r"\w+", labels), name, rest
        at = end


def image(text):
    """The bytes of a source."""
    lines = list(lines_of(text))
    labels = {it: at for at, _, own, *_ in lines for it in own}
    return b"".join(piece(at, name, rest, labels) for at, _, _, name, rest in lines if name)


def places(text):
    """Of each line of a source where it ends in the image, its number, and the last label that stands on it or before it with its place; of labels at one place the first."""
    found, label = [], None
    for number, (at, end, own, *_) in enumerate(lines_of(text), 1):
        if own and (label is None or label[1] != at):
            label = own[0], at
        found.append((end, number, label))
    return found


def piece(at, name, rest, labels, start=0x40_0000):
    """The bytes of a statement at a place of its image; images begin at a multiple of the page's size, and jumps at 00400000."""
    match name:
        case ".space": return bytes(int(rest, 0))
        case ".byte": return bytes([int(rest, 0) & 255])
        case ".word": word = labels[rest.strip()] + start if rest.strip() in labels else int(rest, 0) & MASK
        case "syscall" | "break": word = encode(name) | int(rest or "0", 0) << 6
        case "nop": word = 0
        case "mfc0" | "mtc0":
            _, to, of = operands(f"{name} {rest}")
            word = (0x4080_0000 if name == "mtc0" else 0x4000_0000) | to << 16 | of << 11
        case _ if name in SYSTEM_WORDS: word = SYSTEM_WORDS[name]
        case _:
            _, *o = operands(re.sub(r"\b[A-Za-z_]\w*$", lambda m: str(labels[m[0]] + start) if m[0] in labels else m[0], f"{name} {rest}"))
            if name in BRANCHES:
                o[-1] = (o[-1] - start - at - 4) // 4
            elif name in ("j", "jal"):
                o = (o[0] >> 2,)
            word = encode(name, *([31] if name == "jalr" and len(o) == 1 else []), *o)
    return word.to_bytes(4, "little")


def begun(read, policy, given, kind=Hostile, *more):
    """The run of files at its beginning, with a function from a file's name to its text: on plain pages, or of another kind of run."""
    said = tomllib.loads(read(policy))
    pages, names = said["page"], [it["name"] for it in said["page"]]
    held = [image(read(it["source"]))[4096 * it.get("part", 0):][:4096] if "source" in it else b"" for it in pages]
    frames = said.get("frames", len(pages))
    rules = [(it["process"], it["address"], it["right"], names.index(it["page"]) if "page" in it else None, it.get("give", False), it.get("until"))
             for it in said.get("rule", [])]
    processes = [(it["start"], it.get("line", 0)) for it in said["process"]]
    held += [b""] * (frames - len(pages))
    run = kind(processes, [it.ljust(4096, b"\0") for it in held], len(names), frames, rules, said.get("rate", 0), events_of(read(given), names), *more)
    run.sources = [(it["source"], it.get("part", 0), places(read(it["source"]))) if "source" in it else None for it in pages]
    return run


def events_of(text, names):
    """The events of an input: a time with a command and its operands, or with a key, its line and its bytes."""
    events = []
    for time, what, first, *o in (line.split(" ") for line in text.splitlines() if line and line[0] != "#"):
        match what:
            case "key": rest = [bytes.fromhex(o[0])]
            case "grant": rest = [int(o[0], 16), names.index(o[1]), o[2], len(o) > 3]
            case _: rest = [int(it, 16) for it in o]
        events.append((int(time), what, int(first), *rest))
    return events


def operand(name, o, k):
    """The text of operand k of an instruction."""
    if name in BRANCHES and k == len(o) - 1:
        away = 4 * (signed(o[k], 16) + 1)
        return f".+{away}" if away >= 0 else f".-{-away}"
    if name in ("j", "jal"):
        return f"0x{o[0] << 2:08X}"
    field = CODES[name][2][k]
    if field == (0, 16):
        return f"0x{o[k]:04X}" if name in HALVES else str(signed(o[k], 16))
    return str(o[k]) if field == (6, 5) else f"${o[k]}"


def text_of(word):
    """A word as `dsmon list --words` writes it."""
    if word == 0:
        return "nop"
    name, *o = decode_all(word)
    if name is None:
        return f".word 0x{word:08X}"
    if name in LOADS + STORES:
        return f"{name} ${o[0]},{signed(o[1], 16)}(${o[2]})"
    code = word >> 6 & 0xFFFFF
    said = f"{name} {code}" if name in ("syscall", "break") and code else " ".join(filter(None, (name, ",".join(operand(name, o, k) for k in range(len(o))))))
    return f".word 0x{word:08X} # {said}" if name in (*BRANCHES, "j", "jal") else said


def by_names(text):
    """A text with registers by their common names."""
    return re.sub(r"\$(\d+)", lambda m: f"${COMMON[int(m[1])]}", text)


def decode_all(word):
    """The name of a word's instruction with its operands, where it is one of a user's."""
    if word >> 26 == 0 and word & 63 in (12, 13):
        return ("syscall", "break")[word & 63 == 13],
    name, *o = decode(word)
    return (None,) if name == "raises" else (name, *o)


def writes(name, o):
    """The register into which an instruction puts its result."""
    if name in LINKS:
        return LINKS[name]
    is_none = name in (*STORES, *BRANCHES, "j", "jr", "mult", "multu", "div", "divu", "mthi", "mtlo", "break", None)
    return 2 if name == "syscall" else None if is_none else o[0]


class Traced(Processor):
    """A run that is told."""

    passes_idle = False

    def __init__(self, *begun):
        *begun, self.view = begun
        self.began, self.lines, self.left, self.is_open = 0, [], [], False
        self.happened, self.called, self.denied, self.told_lost, self.first_lost = Counter(), Counter(), Counter(), Counter(), {}
        super().__init__(*begun, self.view.random)

    # What is told, and what is counted.

    def shows(self, p):
        return not self.view.processes or p in self.view.processes

    def tells(self, *kinds):
        return self.view.only in (None, *kinds)

    def is_in_view(self):
        return self.view.begin <= self.began < self.view.end

    def tell(self, *lines):
        self.lines += lines if self.is_in_view() else ()

    def counts(self, *kinds):
        if self.view.begin <= self.began and self.view.only != "end":  # (what goes unit by unit, up to the run's end, also where `--to` ends before)
            super().counts(*kinds)

    def count(self, kind, number=1):
        if self.is_in_view():
            self.happened[kind] += number

    def word(self, p, address):
        """The word at an address, where the process may fetch it."""
        try:
            page, at = self.at(p, "fetch", address, 4)
            return int.from_bytes(page[at:at + 4], "little")
        except Denied:
            return None

    def looked(self):
        return {"standings": {p: q.state for p, q in self.processes.items()}, "runner": self.ready[0] if self.ready else None,
                "queued": [len(it) for it in self.queues], "logged": len(self.log), "table": dict(self.table)}

    def tell_entries(self, time, before):
        """The entries that have gone, and those that are new or otherwise than in a table, process by process."""
        if not self.view.entries or self.view.only == "end":
            return
        for p in filter(self.shows, self.processes):
            new = {place: entry for place, entry in self.table.items() if before.get(place) != entry}
            self.tell(*(f"{time} entry {p} {address:08X} gone" for q, address in before if q == p and (q, address) not in self.table))
            self.tell(*(f"{time} entry {p} {address:08X} {words_of(entry)}" for (q, address), entry in new.items() if q == p))

    def tell_changes(self, before):
        """Who stands otherwise, who gives way, and who runs."""
        old, new = before["runner"], self.ready[0] if self.ready else None
        self.count("switch", old != new)
        if not self.tells("switches"):
            return
        changed = ((p, q.state) for p, q in self.processes.items() if q.state != before["standings"][p])
        self.tell(*(f"{self.time} {p} {state.lower()}" for p, state in changed if self.shows(p)))
        if old and old != new and self.processes[old].state == "Ready" and self.shows(old):
            self.tell(f"{self.time} {old} gives way")
        if old != new and any(p and self.shows(p) for p in (old, new)):
            self.tell(f"{self.time} {new} runs" if new else f"{self.time} nobody runs")

    # A unit.

    def result(self, p, word):
        """What the instruction of a word has left."""
        name, *o = decode_all(word)
        r, n = self.processes[p].r, writes(name, o)
        if name in STORES and o[2] not in (26, 27):
            return self.held(p, r[o[2]] + signed(o[1], 16))
        return "" if n is None or n in HIDDEN else f"  ${n}={r[n]:08X}"

    def source_of(self, before, p, address):
        """Where an address stands in its source, by the table before the unit."""
        entry = before["table"].get((p, address & ~4095))
        page = self.sources[entry.page] if self.view.source and entry and entry.page is not None and entry.page < len(self.sources) else None
        if page is None:
            return ""
        name, part, lines = page
        byte = 4096 * part + address % 4096
        for end, number, label in lines:
            if byte < end:
                away = byte - label[1] if label else 0
                return f"{name}:{number}" + (f" {label[0]}" if label else "") + (f"+{away}" if away else "") + "  "
        return ""

    def word_loaded(self, p, word, r, link=None):
        """The word from which an instruction has loaded, by what the registers held before its unit."""
        name, *o = decode_all(word)
        if not self.view.source or name not in LOADS or o[2] in (26, 27, link):
            return ""
        return self.held(p, r[o[2]] + signed(o[1], 16))

    def held(self, p, address):
        """The word around an address, where the process may fetch it."""
        value = self.word(p, address & MASK & ~3)
        return "" if value is None else f"  {address & MASK & ~3:08X}={value:08X}"

    def line_of(self, before, p, time, pc, word, call, left):
        text = f"{time} {p} {pc:08X} {self.with_names(text_of(word))}{call}{self.with_names(left)}"
        return self.source_of(before, p, pc) + text

    def with_names(self, text):
        return by_names(text) if self.view.names else text

    def unit_half(self, p):
        before, q, time = self.looked(), self.processes[p], self.time
        pc, word = q.pc, self.word(p, q.pc)
        name, *o = decode_all(word) if word is not None else (None,)
        slot = self.word(p, pc + 4 & MASK) if name in JUMPS else None
        call, number, mode, r = self.call_text(q.r) if name == "syscall" else "", q.r[2], q.r[7], list(q.r)
        self.time += self.unit(p)
        logged = self.log[before["logged"]:]
        done = not logged or name == "syscall"
        if self.is_in_view():
            self.happened += Counter(unit=1, denial=len(logged), call=bool(call), copy=bool(call) and (number, mode, q.r[2]) == (GIVE, COPY, 0))
            self.denied.update(map(rule_of, logged))
            self.called.update([min(number, UNKNOWN)] if call else [])
        if self.tells("units", *(["calls"] if call else [])) and self.shows(p):
            if word is not None:
                left = self.result(p, word) + self.word_loaded(p, word, r) if done else ""
                is_about_grants = call.split()[:1] in (["give"], ["take"], ["drop"])
                left += f" {REFUSALS[q.r[2]]}" if is_about_grants and q.r[2] in REFUSALS else ""
                self.tell(self.line_of(before, p, time, pc, word, call, left))
            if slot is not None:
                link = o[0] if name == "jalr" else LINKS.get(name)
                left = self.result(p, slot) + self.word_loaded(p, slot, r, link) if done else ""
                self.tell("  " + self.line_of(before, p, time, pc + 4 & MASK, slot, "", left))
        if self.tells("denials") and self.shows(p):
            self.tell(*(f"denied {line}" for line in logged))
        self.tell_entries(self.time, before["table"])
        self.tell_changes(before)

    def call_text(self, r):
        n, a = r[2], r[4:8]
        words = {1: [f"{a[0] & 255:02X}"], GIVE: [f"{a[0]:08X}", str(a[1]), f"{a[2]:08X}", MODES.get(a[3], str(a[3]))], 7: [str(a[0]), f"{a[1]:08X}"], 8: [f"{a[0]:08X}"]}
        if n >= UNKNOWN and self.view.source:
            return f"  unknown {n}: no call has this number"
        return "  " + " ".join([CALLS[min(n, UNKNOWN)], *words.get(n, [])])

    # A boundary.

    def boundary_half(self, runner):
        before, lost_before = self.looked(), Counter(self.lost)
        self.expire(self.time)
        for what, *o in self.commands():
            if self.tells():
                self.tell(f"{self.time} command {self.command + 1} {what} {o[0]}" + (f" {o[1]:08X}" if len(o) > 1 else ""))
            self.obey(what, *o)
        lost = self.lost - lost_before
        self.count("lost", lost.total())
        if self.is_in_view() and self.view.only != "end":
            self.told_lost += lost
            self.first_lost = dict.fromkeys(lost, self.time) | self.first_lost
        if self.tells():
            keys = ((line, byte) for line, queue in enumerate(self.queues) for byte in queue[before["queued"][line]:])
            self.tell(*self.log[before["logged"]:], *(f"{self.time} key {line} {byte:02X}" for line, byte in keys), *[f"{self.time} lost {lost.total()}"] * bool(lost))
        self.wake()
        self.rotate(runner, self.began)
        self.enter()
        self.tell_entries(self.time, before["table"])
        self.tell_changes(before)

    def leave(self):
        """The entries are told once, at the first time that is no longer in the window."""
        if self.view.processor and self.view.only != "end" and self.time >= self.view.end and not self.left:
            self.left = [f"entries at {self.time}, as Random fell", *self.entries()]

    def turn(self):
        if self.time >= self.view.begin:  # (what comes before goes by at once)
            self.leave()
        self.began, runner = self.time, self.ready[0] if self.ready else None
        if self.is_in_view() and not self.is_open:  # all entries, before the first turn that is told
            self.is_open = True
            self.tell_entries(self.began, {})
        if runner:
            self.unit_half(runner)
        else:
            self.time += 1
            self.count("idle")
        self.boundary_half(runner)

    # The end.

    def denied_at_all(self):
        """How often each rule stands in the log, which has commands that were refused, too."""
        return Counter(rule_of(line) for line in self.log if line.split(" ")[1] != "command")

    def counted(self):
        """The lines of what was counted; where the end alone is told, of the whole log."""
        if self.view.only == "end":
            yield f"time {self.time}"
            denied = self.denied_at_all()
        else:
            n, denied = self.happened, self.denied
            yield (f"from {self.view.begin} units {n['unit']} idle {n['idle']} switches {n['switch']} calls {n['call']}"
                   f" denials {n['denial']} copies {n['copy']} lost {n['lost']}")
            yield from (f"call {CALLS[number]} {self.called[number]}" for number in sorted(self.called))
        yield from (f"denied {rule} {times}" for rule, times in denied.items())

    def of_the_processor(self):
        """The lines of its buffer where the window ended, of what the processor did, and of its buffer at the end, where they are asked for."""
        if not self.view.processor:
            return
        self.leave()
        yield from self.left
        n = self.done
        yield f"processor instructions {n['instruction']} refills {n['refill']} double {n['double']} services {n['service']}, as Random fell"
        yield from self.entries()

    def of_a_process(self, p, q):
        """The line of a process; of one that is parked, with its last line of the log."""
        by = [line for line in self.log if line.split(" ")[1] == str(p)] if q.state == "Parked" else []
        registers = self.with_names("".join(f"  ${n}={value:08X}" for n, value in enumerate(q.r) if n not in HIDDEN and value))
        return f"process {p} {q.state.lower()} {q.pc:08X}{''.join(f' by {line}' for line in by[-1:])}{registers}"

    def text(self):
        lines = [*self.lines, *self.of_the_processor(), *self.counted(), *(self.of_a_process(*it) for it in self.processes.items())]
        return "".join(f"{line}\n" for line in lines).encode() + super().text()


def words_of(entry):
    """All that an entry is."""
    words = [entry.right, f"page {entry.page + 1}" if entry.page is not None else "", f"rule {entry.rule}"]
    words += [f"until {entry.until}" if entry.until is not None else "", "give" if entry.give else "", f"giver {entry.giver}" if entry.giver else ""]
    return " ".join(filter(None, [*words, "parent {} {:08X}".format(*entry.parent) if entry.parent else ""]))


def rule_of(line):
    """The rule by which something was denied."""
    return line.split(" ")[5]


def memory_lines(whose, address, count, text_at):
    """Words of memory, eight in a line, by a function from an address to a word's text."""
    for k in range(0, count, 8):
        yield f"memory {whose}{address + 4 * k:08X}: {' '.join(text_at(address + 4 * it) for it in range(k, min(k + 8, count)))}\n"


def traced(read, words):
    """What `dsmon` writes for these words, the first of which is `trace`, with a function from a file's name to its text."""
    (_, policy, given, n), flags = asked(words)
    run = begun(read, policy, given, Traced, view_of(flags))
    run.run(int(n))
    return run.text()


def told(read, words):
    """What it writes for words the first of which is `trace` or `run`; none where the model can't tell, or a run takes more turns than it goes through."""
    try:
        if words[0] == "trace":
            return traced(read, words)
        (_, policy, given, n), _ = asked(words)
        run = begun(read, policy, given)
        run.run(int(n), MOST_TURNS)
        return run.text() if run.time >= int(n) or run.has_ended() else None
    except NotQuiet:
        return None


def is_known(it):
    """Whether a row or a table is of a run or of a trace; what is told beside those, tools/came_model.py knows, and some are written with their programs."""
    is_run = it.words[0] == "run" and not {word.split("=")[0] for word in it.words if word.startswith("--")} - {"--random"}
    return (is_run or it.words[0] == "trace") and not it.line.startswith(("came/", "hostile ", "long ", "processes/turns "))


def rows():
    return [it for it in case_files.rows() if is_known(it) and it.status == 0]


def tables():
    return [it for it in case_files.tables() if is_known(it)]


def files():
    """The texts of all rows and tables. What the model can't tell is left as it is."""
    known = {}
    for it in rows():
        key = (it.folder, *asked(it.words)[0]) if it.words[0] == "run" else it.line  # (the start of Random shows nowhere but in a trace)
        if key not in known:
            known[key] = told(files_in(it.folder), it.words)
        if known[key] is not None:
            yield it.text, known[key]
    for it in tables():
        yield it.cases, case_files.with_cases(it.cases.read_text(), lambda source: told(files_in(it.folder, **{it.file: source}), it.words))


if __name__ == "__main__":
    sys.exit(case_files.main(files, traced))
