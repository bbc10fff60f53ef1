#!/usr/bin/env python3
"""Six guests by dsmon, by GXemul and by spim: million guest instructions a second of processor time, the best of three runs.

`bench/run --beside` calls this; an emulator that is not installed is named, and left out. The guests are sums.s, pages.s, recursion.s
and three that a compiler made of C (bench/compile), word for word the same for all three: before each stand the lines that set its counter and the address of its data, and after it those by which a
program of that emulator ends. dsmon runs them in user mode with its TLB; GXemul runs them on its `testmips` with an R3000, in kernel mode
and unmapped, which costs it less; spim has delayed branches and loads turned on. How many instructions a guest takes is what dsmon says.
"""
import os
import pty
import re
import shutil
import struct
import subprocess
import sys
import tempfile
from pathlib import Path

HERE = Path(__file__).resolve().parent
DSMON = HERE.parent / "crates/dsmon/out/dsmon"
GUESTS = ("sums", "pages", "recursion", "crc", "sieve", "sort")
LEAST = 1.0  # what one run takes at least, in seconds, so that how it begins and ends does not count


def source(guest, times, data, end, begin=""):
    """Returns a guest's source: its counter, the address of its data, the guest, and how it ends."""
    head = f"{begin} lui $s0, {times >> 16}\n ori $s0, $s0, {times & 0xFFFF}\n lui $s1, {data:#x}\n"
    return head + (HERE / f"{guest}.s").read_text() + end


def seconds(words):
    """Runs a command, with a terminal to read from, and returns the processor seconds that it took."""
    terminal, other = pty.openpty()
    with subprocess.Popen(words, stdin=other, stdout=subprocess.DEVNULL, stderr=subprocess.DEVNULL) as ran:
        _, status, used = os.wait4(ran.pid, 0)
        ran.returncode = os.waitstatus_to_exitcode(status)
    os.close(terminal)
    os.close(other)
    if ran.returncode:
        sys.exit(f"{words[0]} ended with status {ran.returncode}")
    return used.ru_utime + used.ru_stime


def by_dsmon(guest, times):
    Path("guest.s").write_text(source(guest, times, 0x1000, " addiu $v0, $zero, 0\n syscall\n"))
    return [str(DSMON), "run", "guest.toml", "quiet.txt", "1000000000"]


def by_gxemul(guest, times):
    end = " lui $t0, 0xB000\n sb $zero, 16($t0)\n nop\n nop\n"
    Path("peer.s").write_text(source(guest, times, 0x8050, end))
    listing = subprocess.check_output([DSMON, "list", "peer.s"], text=True)
    words = [int(it, 16) for it in re.findall(r"^ *\d+  [0-9A-F]{8}  ([0-9A-F]{8}) ", listing, re.M)]
    Path("peer.bin").write_bytes(struct.pack(f">{len(words)}I", *words))
    return ["gxemul", "-q", "-E", "testmips", "-C", "R3000", "-M", "16", "0x80400000:peer.bin"]


def by_spim(guest, times):
    begin = " .text\n .globl __start\n__start:\n"
    Path("peer.s").write_text(source(guest, times, 0x1000, " ori $v0, $zero, 10\n syscall\n", begin))
    return ["spim", "-noexception", "-delayed_branches", "-delayed_loads", "-file", "peer.s"]


def instructions(guest, times):
    """Returns how many instructions a guest takes: dsmon's ticks, of which a round has as many as the next."""
    one, two = (int(subprocess.check_output(by_dsmon(guest, few), text=True).split()[-1]) for few in (1, 2))
    return one + (times - 1) * (two - one)


def rate(emulator, guest):
    """Returns million instructions a second, over as many rounds as take long enough."""
    times = 1
    while seconds(emulator(guest, times)) < LEAST:
        times *= 2
    return instructions(guest, times) / min(seconds(emulator(guest, times)) for _ in range(3)) / 1e6


def main():
    peers = {"dsmon": by_dsmon, "gxemul": by_gxemul, "spim": by_spim}
    for name in ("gxemul", "spim"):
        if not shutil.which(name):
            print(f"{name} is not installed")
            del peers[name]
    with tempfile.TemporaryDirectory() as folder:
        for it in ("guest.toml", "quiet.txt"):
            shutil.copy(HERE / it, folder)
        os.chdir(folder)
        for guest in GUESTS:
            for name, emulator in peers.items():
                print(f"{guest}: {name}: {rate(emulator, guest):.1f} million guest instructions a second", flush=True)


if __name__ == "__main__":
    main()
