#!/usr/bin/env python3
"""Ports zlib and lz4: programs that nobody here wrote run in dsmon, and put what they put natively.

    tools/port.py [--dsmon PROGRAM] [--seed N] [--from FOLDER] [zlib] [lz4]

It is no part of the gate. Debian's source package is fetched by `apt-get`, with lists of its own in a temporary folder, and compiled as it stands, for the
R3000 over examples/c/lib and for this machine over its own C library. A program of examples/c/port/ packs texts of that package and drawn bytes, and unpacks
streams, good and damaged. docs/c.md has what this script said. The status is 1 where something differs, and 2 where something is missing.
"""
import argparse
import contextlib
import random
import re
import shutil
import struct
import subprocess
import sys
import tempfile
import time
import zlib
from collections import namedtuple
from itertools import zip_longest
from pathlib import Path

import elf_to_policy
from rooms import said

TOP = Path(__file__).resolve().parent.parent
EXAMPLES = TOP / "examples" / "c"
NEEDED = {"make": "make", "gcc": "gcc", "mipsel-linux-gnu-gcc": "gcc-mipsel-linux-gnu"}  # commands, and Debian's packages of them
FETCHING = {"apt-get": "apt", "dpkg-source": "dpkg-dev"}
ADDRESS, MOST_TICKS = 0x0050_0000, 1_000_000_000
END, TEXT, PACKED = 0, 1, 2  # kinds of items, as in examples/c/port/items.h
DAMAGED = 60  # streams of each port that are damaged


class Refused(Exception):
    """Why nothing can be compared."""


def item(kind, option, held):
    return struct.pack("<IiI", kind, option, len(held)) + held + bytes(-len(held) % 4)


def damaged(streams, drawn):
    """Streams with a bit turned, or cut off."""
    for k in range(DAMAGED):
        held, option = drawn.choice(streams)
        at = drawn.randrange(len(held))
        yield (held[:at] if k % 6 == 0 else held[:at] + bytes([held[at] ^ 1 << drawn.randrange(8)]) + held[at + 1:]), option


def texts_of(folder, names, drawn):
    """Texts to be packed: files of the package, drawn bytes, one byte over and over, a byte, and nothing."""
    yield from ((folder / it).read_bytes()[:30_000] for it in names)
    yield from (drawn.randbytes(12_000), bytes(40_000), b"a", b"")


def zlib_items(folder, drawn):
    """Texts with the windows and wrappers of their streams, and streams of Python's zlib with how they are to be read."""
    texts = list(texts_of(folder, ("deflate.c", "LICENSE"), drawn))
    windows = [15, 31, -15, 9, -12, 10]
    yield from (item(TEXT, *it) for it in zip(windows, texts))
    streams = []
    for window, told in [(15, 15), (15, 47), (31, 31), (31, 47), (-15, -15), (-9, -15), (9, 15)]:
        packer = zlib.compressobj(9, wbits=window)
        streams.append((packer.compress(texts[1] * 3) + packer.flush(), told))
    yield from (item(PACKED, option, held) for held, option in [*streams, *damaged(streams, drawn)])


def drawn_block(drawn):
    """A block of lz4: literals and copies of what came before, of drawn lengths."""
    def length(count):
        return bytes([255] * (count // 255) + [count % 255])

    block, size = b"", 0
    for _ in range(drawn.randrange(1, 40)):
        literals, more = drawn.randbytes(drawn.choice([1, 3, 14, 15, 300])), drawn.choice([0, 1, 14, 15, 270, 800])
        size += len(literals)
        block += bytes([min(len(literals), 15) << 4 | min(more, 15)])
        block += (length(len(literals) - 15) if len(literals) >= 15 else b"") + literals
        block += struct.pack("<H", drawn.randint(1, size)) + (length(more - 15) if more >= 15 else b"")
        size += more + 4
    return block + bytes([12 << 4]) + drawn.randbytes(12)


def lz4_items(folder, drawn):
    yield from (item(TEXT, 0, it) for it in texts_of(folder, ("lz4.c", "LICENSE"), drawn))
    blocks = [(drawn_block(drawn), 0) for _ in range(20)]
    yield from (item(PACKED, option, held) for held, option in [*blocks, *damaged(blocks, drawn)])


# A source package: the folder of its files and those that are compiled, the words for the compiler, pages of stack, and what the program is given.
Port = namedtuple("Port", "folder files words stack items")
PORTS = {
    "zlib": Port(".", ["adler32.c", "crc32.c", "deflate.c", "inffast.c", "inflate.c", "inftrees.c", "trees.c", "zutil.c"], ["-DZ_SOLO"], 4, zlib_items),
    "lz4": Port("lib", ["lz4.c", "lz4hc.c"], ["-DLZ4_FAST_DEC_LOOP=0"], 30, lz4_items),
}


def ran(words, **how):
    """What a command said on standard output; its last lines where it failed."""
    done = subprocess.run([str(it) for it in words], stdin=subprocess.DEVNULL, capture_output=True, timeout=600, **how)
    if done.returncode:
        last = (done.stdout + done.stderr).decode(errors="replace").strip().splitlines()[-5:]
        raise Refused("\n".join([f"`{' '.join(map(str, words[:3]))} ..` ended with status {done.returncode}:", *last]))
    return done.stdout


def check_tools(needed):
    for command, package in needed.items():
        if not shutil.which(command):
            raise Refused(f"no {command}: apt-get install {package}")


def release_name():
    """The name of the Debian release here, such as bookworm."""
    found = re.search(r"^VERSION_CODENAME=\"?(\w+)", Path("/etc/os-release").read_text("utf-8"), re.MULTILINE)
    if not found:
        raise Refused("no Debian here: fetch the source package, unpack it, and name its folder by --from")
    return found[1]


def fetched(package, room):
    """The folder of Debian's source package, with Debian's changes. The lists of `apt-get` are its own, so nothing of the system changes."""
    for it in ("lists/partial", "cache/archives/partial", "source"):
        (room / it).mkdir(parents=True, exist_ok=True)
    keys = "/usr/share/keyrings/debian-archive-keyring.gpg"
    (room / "sources.list").write_text(f"deb-src [signed-by={keys}] http://deb.debian.org/debian {release_name()} main\n", "ascii")
    settings = {"Dir::Etc::sourcelist": room / "sources.list", "Dir::Etc::sourceparts": "-", "Dir::State::lists": room / "lists", "Dir::Cache": room / "cache",
                "APT::Update::Error-Mode": "any", "APT::Sandbox::User": "root"}
    options = [word for name, value in settings.items() for word in ("-o", f"{name}={value}")]
    if not any((room / "lists").glob("*Sources*")):
        ran(["apt-get", *options, "update"])
    ran(["apt-get", *options, "source", package], cwd=room / "source")
    return next(it for it in (room / "source").glob(f"{package}-*") if it.is_dir())


def of_pages(path):
    """What the compiler is given so that the bytes of a file lie at the address before `main` begins."""
    return [f"-DADDRESS={ADDRESS}", f"-DSIZE={path.stat().st_size}", f'-DHELD="{path}"', TOP / "tools" / "pages.c"]


def natively(name, port, where, items, room):
    """What the program puts that is compiled for this machine."""
    sources = [EXAMPLES / "port" / f"with_{name}.c", *(where / it for it in port.files)]
    ran(["gcc", "-std=c11", "-O2", "-fwrapv", *port.words, "-w", f"-I{where}", "-no-pie", "-o", room / "native", *of_pages(items), *sources])
    return ran([room / "native"])


def by_dsmon(name, port, where, items, room, dsmon):
    """What the program puts in dsmon, its log, and its ticks."""
    program, files = f"with_{name}", [f"with_{name}.c", *port.files]
    ran(["make", "-C", EXAMPLES, f"BUILD={room}", f"PROGRAMS={program}", f"FILES_{program}={' '.join(files)}", f"HEAP_{program}=100",
         f"VPATH=port:{where}", f"MORE={' '.join(port.words)} -w -I{where}"])
    words = ["--stack", str(port.stack), "--data", f"{items}@{ADDRESS:08X}", "--into", str(room / "policy"), str(room / f"{program}.elf")]
    status, _, why = said(elf_to_policy.main, words)
    if status:
        raise Refused(why.strip())
    return parts(ran([dsmon, "run", f"{program}.toml", f"{program}.input", MOST_TICKS], cwd=room / "policy"))


def parts(text):
    """What a run put on line 0, the lines of its log, and its time."""
    count, _, rest = text.removeprefix(b"console 0 ").partition(b"\n")
    console, rest = rest[:int(count)], rest[int(count):].decode()
    return console, re.search(r"^log \d+\n(.*?)^time", rest, re.DOTALL | re.MULTILINE)[1].splitlines(), int(re.search(r"^time (\d+)$", rest, re.MULTILINE)[1])


def first_difference(mine, theirs):
    """The first line in which two texts differ, or None."""
    for at, pair in enumerate(zip_longest(mine.splitlines(), theirs.splitlines(), fillvalue=b"nothing"), 1):
        one, other = (it.decode(errors="replace") for it in pair)
        if one != other:
            return f"line {at}: {one[:80]!r}, natively {other[:80]!r}"
    return None


def read_again(console, items):
    """How many of the streams that were put are read by Python's zlib as the texts that they were made of, and how many there are."""
    texts = [(option, held) for kind, option, held in items if kind == TEXT]
    streams = [bytes.fromhex(it.decode()) for it in re.findall(rb"(?<=\n)(?:[0-9a-f]{2})+(?:\n[0-9a-f]{2,64})*(?=\n)", console)]
    good = 0
    for stream, (option, held) in zip(streams, texts):
        with contextlib.suppress(zlib.error):
            good += zlib.decompress(stream, wbits=option) == held
    return good, len(texts)


def items_in(held):
    """The items of a file, with their kinds, options and bytes."""
    at = 0
    while (it := struct.unpack_from("<IiI", held, at))[0] != END:
        yield *it[:2], held[at + 12:at + 12 + it[2]]
        at += 12 + -(-it[2] // 4) * 4


def compare(name, folder, wanted, room):
    """Runs a port both ways, and says what came of it; the status."""
    port, items = PORTS[name], room / "items"
    where = folder / port.folder
    items.write_bytes(b"".join([*port.items(where, random.Random(wanted.seed)), item(END, 0, b"")]))
    began = time.monotonic()
    mine, log, ticks = by_dsmon(name, port, where, items, room, wanted.dsmon)
    version = re.match(r"\S+ \((\S+)\)", (folder / "debian" / "changelog").read_text("utf-8"))
    took, theirs = time.monotonic() - began, natively(name, port, where, items, room)
    print(f"{name} {version[1] if version else 'of no version'}: {len(port.files)} files as they stand; {items.stat().st_size:,} bytes of texts and streams; {ticks:,} ticks, {took:.0f} s with make")
    told = [f"the log has {log[0]}"] if log else []
    told += [it for it in [first_difference(mine, theirs)] if it]
    if name == "zlib":
        good, count = read_again(mine, items_in(items.read_bytes()))
        print(f"{name}: Python's zlib {zlib.ZLIB_RUNTIME_VERSION} reads {good} of {count} streams that dsmon put")
        told += [f"{count - good} streams are not read"] if good != count else []
    print(f"{name}: " + ("; ".join(told) or f"{len(mine.splitlines()):,} lines, {len(mine):,} bytes, the same as natively"))
    return 1 if told else 0


def options(words):
    parser = argparse.ArgumentParser(description=__doc__, formatter_class=argparse.RawDescriptionHelpFormatter)
    parser.add_argument("names", metavar="NAME", nargs="*", help="zlib or lz4 (both)")
    parser.add_argument("--dsmon", default=shutil.which("dsmon") or TOP / "crates/dsmon/out/dsmon", type=lambda it: Path(it).resolve(), metavar="PROGRAM", help="the program (dsmon)")
    parser.add_argument("--seed", type=int, default=97, metavar="N", help="what bytes are drawn from (97)")
    parser.add_argument("--from", type=Path, dest="folder", metavar="FOLDER", help="the unpacked source package, in place of one that is fetched")
    wanted = parser.parse_args(words)
    wanted.names = wanted.names or ([*PORTS] if wanted.folder is None else parser.error("--from wants one NAME"))
    for it in wanted.names:
        it in PORTS or parser.error(f"{it} is neither zlib nor lz4")
    wanted.folder is None or len(wanted.names) == 1 or parser.error("--from wants one NAME")
    return wanted


def main(words):
    wanted, status = options(words), 0
    try:
        check_tools(NEEDED if wanted.folder else {**NEEDED, **FETCHING})
        if not wanted.dsmon.is_file():
            raise Refused(f"no program {wanted.dsmon}: README.md says how it is built")
        with tempfile.TemporaryDirectory(prefix="port-") as room:
            for name in wanted.names:
                folder = wanted.folder.resolve() if wanted.folder else fetched(name, Path(room))
                (Path(room) / name).mkdir()
                status |= compare(name, folder, wanted, Path(room) / name)
    except (Refused, OSError) as why:
        print(f"port: {why}", file=sys.stderr)
        return 2
    return status


if __name__ == "__main__":
    sys.exit(main(sys.argv[1:]))
