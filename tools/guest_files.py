"""What a file gives a guest to read: pages with its bytes at an address, or keys that come in at a pace it can keep up with."""
import re
from collections import namedtuple
from pathlib import Path

from elf_program import KERNEL, MAY_READ, PAGE, Page, Refused, check_spans, refuse

AT_ONCE = 64  # characters that come in at a boundary
MOST_EVENTS, MOST_TICKS = 4096, 1_000_000_000  # of an input
END_OF_INPUT = 4  # control D, by which examples/c/lib ends what it reads
# A file whose bytes lie in pages: its words on the command line, its name, and its pages by their addresses.
Data = namedtuple("Data", "given name pages")


def bytes_of(path):
    refuse(not path.is_file(), f"{path}: no file of this name")
    return path.read_bytes()


def data_of(given):
    """The pages of FILE@ADDRESS. What the file does not fill of the last one is zero."""
    file, _, word = given.rpartition("@")
    if not file or not re.fullmatch(r"(0x)?[0-9A-Fa-f]{1,8}", word):
        raise Refused(f"{given}: no FILE@ADDRESS, such as text@00500000")
    address, path = int(word, 16), Path(file)
    if address % PAGE or address >= KERNEL:
        raise Refused(f"{given}: {address:08X} is no address of a page: a multiple of 1000 below 80000000, in hexadecimal digits")
    held = bytes_of(path)
    refuse(not held, f"{given}: the file is empty")
    refuse(address + len(held) > KERNEL, f"{given}: it reaches beyond 7FFFFFFF")
    pages = {address + at: Page(bytearray(held[at:at + PAGE].ljust(PAGE, b"\0")), MAY_READ) for at in range(0, len(held), PAGE)}
    return Data(given, re.sub(r"[^A-Za-z0-9._-]", "_", path.name)[:40], pages)


def check_data(datas, programs, stack):
    """Refuses data whose pages are a program's, a stack's or other data's, or are more than a process may have."""
    for program in programs:
        owners = {at: f"the stack of {program.name}" if at >= KERNEL - PAGE * stack else program.name for at in program.pages}
        for data in datas:
            for at in data.pages:
                if at in owners:
                    raise Refused(f"{data.given}: the page at {at:08X} is taken by {owners[at]}")
                owners[at] = data.given
            try:
                check_spans([(at // PAGE, at // PAGE) for at in owners])
            except Refused as why:
                raise Refused(f"{data.given}: with it {program.name} has {why}") from None


def keys_text(path, line, pace, head):
    """An input in which the bytes of a file come in as keys of a line: 64 each so many ticks, and control D after them."""
    held = bytes_of(path)
    parts = [held[at:at + AT_ONCE] for at in range(0, len(held), AT_ONCE)]
    refuse(len(parts) >= MOST_EVENTS, f"{path}: {len(held)} bytes: at most {AT_ONCE * (MOST_EVENTS - 1)} can come in")
    if (len(parts) + 1) * pace > MOST_TICKS:
        raise Refused(f"{path}: its end would come at {(len(parts) + 1) * pace}, and no time is above {MOST_TICKS}: a smaller --pace")
    keys = [f"{pace * k} key {line} {it.hex().upper()}" for k, it in enumerate(parts, 1)]
    end = f"{pace * (len(parts) + 1)} key {line} {END_OF_INPUT:02X}"
    return "\n".join([f"{head} of {path.name}: its bytes as keys, {AT_ONCE} at a time.", *keys, "# Control D, the end of what is read.", end]) + "\n"
