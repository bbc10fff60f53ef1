#!/usr/bin/env python3
"""Draws sessions of `dsmon debug` at random, and holds each of them against the list of all positions of its run.

A position is where a run stands between two turns. The list of them is that of a plain model of runs (tools/trace_model.py), which
shares nothing with the program: at each position the time, who runs, each process's registers, what each may load, the
consoles and the log. What stops is worked out from that list after docs/debug.md. A session is some sixty packets: steps,
`continue`, ranges, `bs`, `bc`, breakpoints, watches, a time to stop at, registers and memory, of one process and of several. What
the program writes has to be, to the byte, what the list tells.

The program is crates/dsmon/out/dsmon, or --program FILE. Where there is none the script says so, and its status is 0.
"""
import random
import sys
from itertools import takewhile

import debug_sessions as sessions
import trace_model

# The folder below examples/, the policy, the input, and N. The last is long enough that stations of it are kept.
RUNS = [
    (".", "hello.toml", "hello.input", 100),
    (".", "denied_store.toml", "denied_store.input", 100),
    (".", "ping_pong.toml", "ping_pong.input", 400),
    (".", "lent_page.toml", "lent_page.input", 300),
    ("labs", "lost_update.toml", "nothing.input", 400),
    (".", "apart_busy.toml", "apart.input", 40000),
]
SIGNALS = {"1": 11, "2": 11, "3": 11, "4": 10, "5": 10, "8": 12, "9": 5, "10": 4, "11": 4, "12": 8}
REST, CONTINUE = ("", 5), ("c",)


class Position:
    """What a run has between two turns."""

    def __init__(self, run, before=None):
        self.time, self.runner = run.time, run.ready[0] if run.ready else None
        self.registers = {p: (list(q.r), q.hi, q.lo, q.pc) for p, q in run.processes.items()}
        self.lives = {p: q.state != "Ended" for p, q in run.processes.items()}
        pages = before.pages if before else {}
        self.pages = {number: pages[number] if pages.get(number) == page else bytes(page) for number, page in run.pages.items()}
        self.table = {place: entry.page for place, entry in run.table.items() if entry.right != "none"}
        self.consoles = [bytes(it) for it in run.consoles]
        self.log = list(run.log)

    def byte(self, p, address):
        """The byte at an address, where the process may load it."""
        page = self.table.get((p, address - address % 4096)) if address < 2**31 else None
        return None if page is None else self.pages[page][address % 4096]

    def goes_on(self, n):
        return self.time < n and any(self.lives.values())

    def exits_next(self):
        """Whether the last process that lives stands at its exit, which is not done."""
        if self.runner is None or sum(self.lives.values()) > 1:
            return False
        general, _, _, pc = self.registers[self.runner]
        word = [self.byte(self.runner, pc + at) for at in range(4)]
        return None not in word and bytes(word[:1])[0] % 64 == 12 and word[3] < 4 and general[2] == 0

    def may_go(self, n):
        return self.goes_on(n) and not self.exits_next()


def positions(folder, policy, given, n):
    """All positions of a run, in their order."""
    run = trace_model.begun(trace_model.files_in(sessions.TOP / "examples" / folder), policy, given, trace_model.Traced, trace_model.View(end=0))
    found = [Position(run)]
    while found[-1].goes_on(n):
        run.turn()
        found.append(Position(run, found[-1]))
    return found


def shown(text):
    """The packets by which a text is shown."""
    return ["O" + text[at : at + 1000].hex() for at in range(0, len(text), 1000)]


def register(values, number):
    """A register by gdb's number, in digits."""
    general, hi, lo, pc = values
    if number in (26, 27) or number in (32, 35, 36) or number > 37:
        return "xxxxxxxx"
    value = general[number] if number < 32 else {33: lo, 34: hi, 37: pc}[number]
    return value.to_bytes(4, "little").hex()


class Debugger:
    """What a session is answered, by the list of all positions of its run."""

    def __init__(self, path, n):
        self.path, self.n, self.at = path, n, 0
        self.count = len(path[0].registers)
        self.process, self.going, self.breaks, self.watches, self.stop_at = 1, None, [], [], None

    def here(self):
        return self.path[self.at]

    # What stops after the turn that comes to a position.

    def watched(self, k, actions):
        for p, address, length in self.watches:
            before, now = self.path[k - 1], self.path[k]
            if actions.get(p) and any(now.byte(p, address + i) not in (None, before.byte(p, address + i)) for i in range(length)):
                return p, (f"watch:{address:08X};", 5)
        return None

    def stop(self, k, actions):
        """Who stops there and why, of what the process watches, its unit, and the place of who runs next."""
        if found := self.watched(k, actions):
            return found
        (before, now), action = self.path[k - 1:k + 1], actions.get(self.path[k - 1].runner)
        words = now.log[len(before.log)].split(" ") if len(now.log) > len(before.log) else []
        if action and len(words) == 7 and words[6] in SIGNALS:
            return before.runner, ("", SIGNALS[words[6]])
        pc = now.registers[before.runner][3] if action else 0
        if action and (action[0] == "s" or action[0] == "r" and not (pc - action[1]) % 2**32 < (action[2] - action[1]) % 2**32):
            return before.runner, REST
        p = now.runner
        return (p, ("swbreak:;", 5)) if actions.get(p) and (p, now.registers[p][3]) in self.breaks else None

    # Where a session goes.

    def moved(self, old):
        """A time that was asked for and passed is asked for no more."""
        t, new = self.stop_at, self.here().time
        if t is not None and (old < t <= new or new <= t < old):
            self.stop_at = None

    def forward(self, actions):
        old, bound = self.here(), self.n
        if self.stop_at is not None and old.time < self.stop_at < self.n:
            bound = self.stop_at
        found = None
        while not found and self.here().may_go(bound):
            self.at += 1
            found = self.stop(self.at, actions)
        now = self.here()
        if found is None:
            found = self.process, REST if now.may_go(self.n) else ("replaylog:end;", 5)
        self.moved(old.time)
        grown = [now.consoles[l][len(old.consoles[l]) :] for l in range(4)]
        grown.append("".join(f"{line}\n" for line in now.log[len(old.log) :]).encode())
        return [part for text in grown for part in shown(text)] + [self.told(*found)]

    def told(self, p, why):
        self.process = p
        return f"T{why[1]:02x}thread:p{p:x}.1;{why[0]}"

    def backward(self, is_step):
        p, old, time = self.going or self.process, self.at, self.here().time
        if is_step:
            at = next((k for k in range(old - 1, -1, -1) if self.path[k].runner == p), None)
            found = p, REST
            if at is None:
                at, found = old, (p, ("replaylog:begin;", 5) if time == 0 else ("", 2))
        else:
            actions, (at, found), asked = {q: CONTINUE for q in self.path[0].registers if self.going in (None, q)}, (0, None), self.stop_at
            for k in range(old, 0, -1):  # (where the session stands, only what is watched stops)
                if found := self.stop(k, actions) if k < old else self.watched(k, actions):
                    at = k
                    break
            if asked is not None and asked < min(time, self.n) and (found is None or self.path[at].time < asked):
                at, found = next((k for k, it in enumerate(self.path) if it.time >= asked), len(self.path) - 1), (p, REST)
            found = found or (p, ("replaylog:begin;", 5))
        self.at = at
        self.moved(time)
        return [self.told(*found)]

    # What is answered to a packet.

    def answer(self, packet):
        """The texts of the packets that are answered."""
        rest, values = packet[1:], self.here().registers[self.process]
        match packet[0]:
            case "v": return self.forward(self.actions(rest.removeprefix("Cont;").split(";")))
            case "s" | "c": return self.forward({p: (packet,) for p in self.path[0].registers if self.going in (None, p)})
            case "b": return self.backward(packet == "bs")
            case "q": return self.monitor(bytes.fromhex(rest.removeprefix("Rcmd,")).decode())
            case "Z" | "z":
                kind, *place = rest.split(",")
                return [self.set(packet[0] == "Z", kind == "2", *(int(it, 16) for it in place))]
            case "H": return [self.named(rest[0], None if rest[1:] == "-1" else int(rest[2:].split(".")[0], 16) or None)]
            case "g": return ["".join(register(values, number) for number in range(38))]
            case "p": return [register(values, int(rest, 16))]
            case "m":
                address, length = (int(it, 16) for it in rest.split(","))
                found = (self.here().byte(self.process, place) for place in range(address, address + length))
                return [bytes(takewhile(lambda it: it is not None, found)).hex() or "E14"]

    def actions(self, words):
        found = {}
        for word in words:
            action, _, thread = word.partition(":")
            who = [int(thread[1:].split(".")[0], 16)] if thread else self.path[0].registers
            kind = (action[0], *(int(it, 16) for it in action[1:].split(",") if it))
            for p in who:
                found.setdefault(p, kind)
        return found

    def monitor(self, words):
        if words.startswith("stop "):
            self.stop_at = int(words[5:])
            return ["OK"]
        goes = "goes on" if self.here().goes_on(self.n) else "is over"
        return [*shown(f"time {self.here().time} of {self.n}, {goes}\n".encode()), "OK"]

    def set(self, sets, is_watch, address, length):
        listed, it = (self.watches, (self.process, address, length)) if is_watch else (self.breaks, (self.process, address))
        if not sets:
            listed[:] = [other for other in listed if other != it]
        elif is_watch and length > 64:
            return "E16"
        elif it not in listed:
            if len(listed) >= (16 if is_watch else 64):
                return "E1C"
            listed.append(it)
        return "OK"

    def named(self, purpose, p):
        if p is not None and not 1 <= p <= self.count:
            return "E03"
        if purpose == "c":
            self.going = p
        elif p is not None:
            self.process = p
        return "OK"


def places(path):
    """Addresses at which processes stand, and those of words that change, each with its process."""
    codes = sorted({(p, it[3]) for position in path for p, it in position.registers.items()})
    words = set()
    for one, other in zip(path, path[1:]):
        for (p, page), number in other.table.items():
            if one.pages[number] is not other.pages[number]:
                words |= {(p, page + at) for at in range(0, 4096, 4) if one.pages[number][at : at + 4] != other.pages[number][at : at + 4]}
    return codes, sorted(words) or [(1, 0x410000)]


def drawn(path, draw, number):
    """So many packets, drawn at random."""
    codes, words = places(path)
    processes, end = sorted(path[0].registers), path[-1].time
    name = lambda: f"p{draw.choice(processes):x}.1"  # noqa: E731
    packets = []
    while len(packets) < number:
        code, word = draw.choice(codes), draw.choice(words)
        begins = code[1] + 4 * draw.randrange(-2, 3)
        packets += draw.choice(
            [
                ["vCont;c"], ["vCont;s"], ["s"], ["c"], ["bs"], ["bs"], ["bc"], ["bc"],
                [f"vCont;s:{name()};c"], [f"vCont;s:{name()}"], [f"vCont;c:{name()}"],
                [f"vCont;r{begins:x},{code[1] + 4 * draw.randrange(4):x}:{name()};c"],
                [f"Hg{name()}"], [f"Hc{draw.choice([name(), 'p0.0', '-1'])}"],
                [f"Hgp{code[0]:x}.1", f"{draw.choice('ZZz')}0,{code[1]:x},4"],
                [f"Hgp{word[0]:x}.1", f"{draw.choice('ZZz')}2,{word[1] + draw.choice([0, 0, 0, 1, -4]):x},{draw.choice([1, 4, 4, 8, 64, 65]):x}"],
                ["g"], [f"p{draw.randrange(40):x}"], [f"m{word[1]:x},8"], [f"m{draw.choice([0x400000, 0x400FFC, 0x10000000]):x},8"],
                ["qRcmd," + f"stop {draw.randrange(end + 2)}".encode().hex()], ["qRcmd," + b"time".hex()],
            ]
        )
        packets += ["qRcmd," + b"time".hex(), "g", f"m{word[1]:x},8"] if draw.random() < 0.5 else []
    return packets[:number]


class Drawn(sessions.Session):
    """A session of these packets, in the form in which debug_sessions.py holds one."""

    def __init__(self, run, path, packets):
        folder, policy, given, n = run
        self.folder, self.words = sessions.TOP / "examples" / folder, ["debug", policy, given, str(n)]
        self.told, self.status, self.packets = b"", 0, packets
        debugger = Debugger(path, n)
        self.steps = [(True, sessions.framed("QStartNoAckMode")), (False, b"+" + sessions.framed("OK"))]
        for packet in packets:
            self.steps.append((True, sessions.framed(packet)))
            self.steps += [(False, sessions.framed(text)) for text in debugger.answer(packet)]

    def fault(self, program):
        """What comes otherwise than the list has it, or nothing."""
        return sessions.fault_of(self, sessions.held(program, self, [(True, self.all_of(True))]))


def main(words=None):
    asked = sessions.asked(__doc__, words, times=20, seed=0, packets=60)
    if asked is None:
        return 0
    wrong = held = 0
    for run in RUNS:
        path = positions(*run)
        for seed in range(asked.seed, asked.seed + asked.times):
            session = Drawn(run, path, drawn(path, random.Random(f"{run[1]} {seed}"), asked.packets))
            fault, held = session.fault(str(asked.program)), held + 1
            if fault:
                wrong += 1
                print(f"{run[1]}, draw {seed}: {fault}\n    {' '.join(session.packets)}")
    print(f"{held - wrong} of {held} sessions are as the list of all positions has them")
    return int(wrong > 0)


if __name__ == "__main__":
    sys.exit(main())
