#!/usr/bin/env python3
"""How long a take, a revoke, a drop and the end of a process take where all of 25,600 entries are of one family.

    bench/families.py [PROGRAM]            seconds of processor time of one call, for each family and call
    bench/families.py --alone PROGRAM      host instructions of one call alone, where nearly nothing is shared, by callgrind (valgrind)
    bench/families.py --guest DSMON        seconds of processor time of a million ticks of a guest that drops and gives, with full tables

PROGRAM is rows, as `(cd crates/rows && rt run)` proves and builds it. It replays two files over both buffers: the shares, and the shares with a call after them;
a call is half of the difference, of the least of nine runs each, which may be wrong by 20 milliseconds. What the program compares after each call is a part of
it. In a chain each entry was shared from the one before it, in a zigzag from one of the next process, so that a walk over the processes meets the last one
first, and in a fan all from one. From a leaf nothing was shared; what was shared from the one that `drop` drops is handed on.

With `--alone` each process that takes part has 255 entries that an operator granted, and one place free, the last. Counted is what callgrind collects in the
function of the call, for each buffer: so PROGRAM has to keep `Grants::take` and the others as functions. A proved program has them inlined; one from the code
that `rt try` hands to LLVM, with its checks taken out and these marked `noinline`, keeps them.

With `--guest` process 1 of 100 gives until each has 255 or 256 entries, some 230,000 ticks, and then goes on as `families.s` says.
"""
import os
import re
import resource
import subprocess
import sys
import tempfile
from pathlib import Path

TOP = Path(__file__).resolve().parent.parent
PROGRAM = TOP / "crates" / "rows" / "out" / "rows"
FILE = "parts/grants/families.txt"
PROCESSES, ENTRIES, RUNS = 100, 256, 9
CALLGRIND = ["valgrind", "--tool=callgrind", "--callgrind-out-file=/dev/null"]


def places(family):
    """The places of all entries: that of the policy's first, and then the shares in the order in which they are made."""
    if family == "zigzag":
        return [(PROCESSES - k % PROCESSES, 0x1000 * (k // PROCESSES + 1)) for k in range(PROCESSES * ENTRIES)]
    return [(k // ENTRIES + 1, 0x1000 * (k % ENTRIES + 1)) for k in range(PROCESSES * ENTRIES)]


def shares(family):
    """The lines that make a family; its first entry is granted, and all others descend from the second."""
    all_places = places(family)
    yield f"start {PROCESSES} 4 1"
    yield "grant {} {:08x} 0 write give 1".format(*all_places[0])
    for k in range(1, len(all_places)):
        above = all_places[k - 1] if family != "fan" else all_places[min(k - 1, 1)]
        yield "give {} {:08x} {} {:08x} 2".format(*above, *all_places[k])


def calls(family):
    first, second, *_, last = places(family)
    yield "leaf", "drop {} {:08x} own".format(*last)
    yield "drop", "drop {} {:08x} own".format(*second)
    yield "take", "take {} {} {:08x}".format(first[0], *second)
    yield "revoke", "revoke {} {:08x} 2".format(*first)
    yield "end", f"end {second[0]}"


def grants(processes, room):
    """The lines that grant all entries of each process but one, or but as many as it is to have room for."""
    yield f"start {processes} 4 1"
    for process in range(1, processes + 1):
        for k in range(1, ENTRIES + 1 - room.get(process, 1)):
            yield f"grant {process} {0x1000 * k:08x} 0 write give 1"


def calls_alone():
    """Calls, each with its name and the lines before it."""
    last = 0x1000 * ENTRIES
    made, gift = [*grants(2, {})], f"give 1 00001000 2 {last:08x} 2"
    yield "give", made, gift
    for name, address in ("last", last), ("middle", last // 2), ("first", 0x1000):
        yield f"drop {name}", [*made, gift], f"drop 2 {address:08x} own"
    yield "end", [*made, gift], "end 2"
    each = [(f"{n}", n + 2, {}, [f"give 2 {last:08x} {process} {last:08x} 2" for process in range(3, n + 3)]) for n in (0, 1, 10, 50)]
    in_one = [(f"{n} in one", 3, {3: n}, [f"give 2 {last:08x} 3 {last - 0x1000 * k:08x} 2" for k in range(n)]) for n in (1, 10, 50)]
    for name, processes, room, family in each + in_one:
        made = [*grants(processes, room), gift, *family]
        yield f"take {name}", made, f"take 1 2 {last:08x}"
        yield f"revoke {name}", made, f"revoke 2 {last:08x} 2"
    made = list(shares("chain"))[: 4 * ENTRIES + 1]
    yield "chain give", made[:-1], made[-1]
    yield "chain leaf", made, f"drop 4 {last:08x} own"
    yield "chain end", made, "end 2"
    yield "chain take", made, "take 2 3 00001000"
    yield "chain revoke", made, "revoke 3 00001000 2"


def count_alone(program):
    symbols = subprocess.run(["nm", program], capture_output=True, text=True, check=True).stdout
    for name, made, call in calls_alone():
        word = call.split()[0]
        function = {"drop": "drop_page", "end": "end_process"}.get(word, word)
        took = []
        for symbol in sorted(set(re.findall(rf" (\S*::Grants::{function}::<\S*>)", symbols))):
            words = [*CALLGRIND, f"--toggle-collect={symbol}"]
            before = replayed(program, made, words) if any(it.startswith(word) for it in made) else 0
            took.append(replayed(program, [*made, call], words) - before)
        print(f"{name:16}{', '.join(f'{it:,.0f}' for it in sorted(took)) or 'no such function in PROGRAM'} instructions", flush=True)


def replayed(program, lines, words=()):
    """Replays a file alone; what it took, by the system's count or by callgrind's."""
    index = "".join(f"grants {FILE} {buffer}\n" for buffer in ("searched", "indexed"))
    with tempfile.TemporaryDirectory() as folder:
        for name, text in {"rows": "", "tables": "", "told": "", "steps/index": "", "parts/index": index, FILE: "\n".join(lines) + "\n"}.items():
            (Path(folder) / name).parent.mkdir(parents=True, exist_ok=True)
            (Path(folder) / name).write_text(text)
        before = resource.getrusage(resource.RUSAGE_CHILDREN).ru_utime
        ran = subprocess.run([*words, program], cwd=folder, capture_output=True, text=True)
        took = resource.getrusage(resource.RUSAGE_CHILDREN).ru_utime - before
    told = re.findall(rf"^grants {FILE} (\w+): {len(lines)} as expected$", ran.stdout, re.M)
    if told != ["searched", "indexed"]:
        sys.exit(f"{program}: {ran.stdout[-2000:]}{ran.stderr[-2000:]}")
    counted = re.search(r"Collected : (\d+)", ran.stderr)
    return int(counted[1]) if counted else took


def time_guest(program):
    with tempfile.TemporaryDirectory() as folder:
        rules = [f'{{ process = {n}, address = 0x00400000, right = "read", page = "code" }}' for n in range(1, PROCESSES + 1)]
        rules.append('{ process = 1, address = 0x00410000, right = "write", page = "data", give = true }')
        processes = ", ".join(["{ start = 0x00400000, line = 0 }"] * PROCESSES)
        pages = '{ name = "code", source = "families.s", part = 0 }, { name = "data" }'
        Path(folder, "families.toml").write_text(f"version = 1\nframes = 16\nprocess = [{processes}]\npage = [{pages}]\nrule = [{', '.join(rules)}]\n")
        for name in ("families.s", "quiet.txt"):
            Path(folder, name).write_bytes((TOP / "bench" / name).read_bytes())
        took = {}
        for ticks in [300_000, 1_300_000] * RUNS:
            before = resource.getrusage(resource.RUSAGE_CHILDREN).ru_utime
            subprocess.run([program, "run", "families.toml", "quiet.txt", str(ticks)], cwd=folder, stdout=subprocess.DEVNULL, check=True)
            took.setdefault(ticks, []).append(resource.getrusage(resource.RUSAGE_CHILDREN).ru_utime - before)
        print(f"{min(took[1_300_000]) - min(took[300_000]):.3f} seconds a million ticks")


def main(arguments):
    program = os.path.abspath(next((it for it in arguments if not it.startswith("--")), PROGRAM))
    if "--alone" in arguments:
        return count_alone(program)
    if "--guest" in arguments:
        return time_guest(program)
    for family in ("chain", "zigzag", "fan"):
        made, took = list(shares(family)), {}
        for _ in range(RUNS):  # by turns, so that what else goes on slows all of them alike
            for name, line in [("none", ""), *calls(family)]:
                took.setdefault(name, []).append(replayed(program, [*made, line]))
        for name, _ in calls(family):
            print(f"{family:8}{name:8}{(min(took[name]) - min(took['none'])) / 2 * 1000:.1f} milliseconds", flush=True)


if __name__ == "__main__":
    main(sys.argv[1:])
