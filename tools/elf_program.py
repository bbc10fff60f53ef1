"""Reads an ELF executable for MIPS I, little-endian, as the program of a process: its pages, or why it can't run in dsmon."""
import struct
from collections import namedtuple
from dataclasses import dataclass, field

from later_instructions import later

PAGE = 4096  # bytes in a page
REGION_BITS, MOST_REGIONS = 22, 4
MOST_PAGES, MOST_ENTRIES = 1024, 256  # of a policy, of a process
KERNEL = 0x8000_0000  # the first address that no process has

OTHER_FILES = [  # how files begin that are taken for executables
    (b"\x62\x01", "an ECOFF file, as ULTRIX has them: link it anew as ELF"),
    (b"\x66\x01", "an ECOFF file, as ULTRIX has them: link it anew as ELF"),
    (b"\x01\x60", "a big-endian ECOFF file: link it anew as little-endian ELF"),
    (b"!<arch>\n", "an archive of object files: link it first"),
]
ARCHITECTURES = ["MIPS I", "MIPS II", "MIPS III", "MIPS IV", "MIPS V", "MIPS32", "MIPS64", "MIPS32 release 2", "MIPS64 release 2",
                 "MIPS32 release 6", "MIPS64 release 6"]
EXECUTABLE, MIPS = 2, 8
KINDS = {1: "an object file: link it first", 3: "dynamic: link it with -static -fno-pic", 4: "a core file"}
LOAD, DYNAMIC, INTERPRETER = 1, 2, 3
MAY_RUN, MAY_WRITE, MAY_READ = 1, 2, 4
IN_MEMORY, HAS_CODE, OF_THREAD = 2, 4, 0x400  # flags of a section


class Refused(Exception):
    """Why there is no policy."""


def refuse(is_so, why):
    """Refuses what is so, and tells why."""
    if is_so:
        raise Refused(why)


# A part of memory: its address, its bytes in the file, its end with the zeros after them, and its flags.
Segment = namedtuple("Segment", "address data end flags")


@dataclass
class Page:
    """A page of a process: its bytes, and the flags of the segments that have some of them."""
    data: bytearray = field(default_factory=lambda: bytearray(PAGE))
    flags: int = 0

    @property
    def right(self):
        return "write" if self.flags & MAY_WRITE else "read"


# What a process runs: its name, where it starts, its pages by their addresses, and its code as addresses with bytes.
Program = namedtuple("Program", "name start pages code")


def unpacked(form, data, at, what):
    """The numbers that stand at a place of a file, lowest byte first."""
    refuse(at + struct.calcsize("<" + form) > len(data), f"it ends within its {what}")
    return struct.unpack_from("<" + form, data, at)


def check_kind(data):
    """Refuses what is no ELF executable for this machine, by name."""
    for begin, why in OTHER_FILES:
        refuse(data.startswith(begin), why)
    refuse(not data.startswith(b"\x7fELF"), "no ELF file")
    size, order, version = unpacked("BBB", data, 4, "header")
    refuse(size != 1, "an ELF file of 64 bits" if size == 2 else f"an ELF file of an unknown class, {size}")
    if order != 1:
        raise Refused("big-endian: compile it by mipsel- in place of mips-, or with -EL" if order == 2 else f"an ELF file of an unknown byte order, {order}")
    kind, machine, later_version = unpacked("HHI", data, 16, "header")
    refuse(version != 1 or later_version != 1, f"an ELF file of version {max(version, later_version)}")
    refuse(machine != MIPS, f"for another machine, number {machine} in ELF: MIPS is {MIPS}")
    refuse(kind != EXECUTABLE, KINDS.get(kind, f"no executable: its type in ELF is {kind}"))


def program_of(name, data, stack):
    """What a process runs whose file has these bytes, with a stack of so many pages; or why it can't."""
    check_kind(data)
    start, headers, sections, flags, size, header_size, count, section_size, section_count = unpacked("IIIIHHHHH", data, 24, "header")
    if (size, header_size) != (52, 32) or section_count and section_size != 40:
        raise Refused("its header tells other sizes than those of ELF")
    rows = [unpacked("8I", data, headers + 32 * k, "program headers") for k in range(count)]
    refuse(any(row[0] in (DYNAMIC, INTERPRETER) for row in rows), "dynamic: link it with -static -fno-pic")
    segments = [segment_of(data, row) for row in rows if row[0] == LOAD and row[4:6] != (0, 0)]
    refuse(not segments, "it has no segment to load")
    order = sorted(segments, key=lambda it: it.address)
    for first, second in zip(order, order[1:]):
        refuse(first.end > second.address, f"its segments at {first.address:08X} and {second.address:08X} overlap")
    code = code_of(segments, [unpacked("10I", data, sections + 40 * k, "section headers") for k in range(section_count)])
    check_code(code, flags)
    if start % 4 or not any(it.flags & MAY_RUN and it.address <= start < it.end for it in segments):
        raise Refused(f"it starts at {start:08X}, which is no word of a segment that may be executed")
    return Program(name, start, pages_of(segments, stack), code)


def segment_of(data, row):
    _, place, address, _, in_file, size, flags, _ = row
    refuse(in_file > size, f"its segment at {address:08X} has more bytes in the file than in memory")
    if address + size > KERNEL:
        raise Refused(f"its segment at {address:08X} reaches beyond 7FFFFFFF: addresses from 80000000 up are the kernel's")
    refuse(place + in_file > len(data), f"it ends within its segment at {address:08X}")
    return Segment(address, data[place:place + in_file], address + size, flags)


def code_of(segments, sections):
    """The code as addresses with bytes: the sections that have code, or, where there are no sections, the segments."""
    if not sections:
        return [(it.address, it.data) for it in segments if it.flags & MAY_RUN]
    found = []
    for _, _, flags, address, _, size, *_ in sections:
        if not flags & IN_MEMORY or flags & OF_THREAD or size == 0:
            continue
        place = next((it for it in segments if it.address <= address and address + size <= it.end), None)
        refuse(place is None, f"its section at {address:08X} lies in no segment")
        if flags & HAS_CODE:
            found.append((address, place.data[address - place.address:address - place.address + size]))
    return found


def words_of(code):
    """Each word of the code with its address."""
    for address, data in code:
        for at in range(-address % 4, len(data) - 3, 4):
            yield address + at, struct.unpack_from("<I", data, at)[0]


def check_code(code, flags):
    """Refuses code of a later architecture: by an instruction, or where there is none by the flags of the file."""
    for address, word in words_of(code):
        if found := later(word):
            name, architecture = found
            raise Refused(f"`{name}` at {address:08X} is an instruction of {architecture}: compile with -march=r3000, and link no library that is made for it")
    refuse(flags & 0x0600_0000, "code of microMIPS or MIPS16")
    architecture = flags >> 28
    if architecture:
        name = ARCHITECTURES[architecture] if architecture < len(ARCHITECTURES) else f"architecture {architecture}"
        raise Refused(f"made for {name}, whose processors wait for a load by themselves: compile with -march=r3000")


def pages_of(segments, stack):
    """The pages of a process by their addresses, in order, with a stack of so many pages."""
    spans = [(it.address // PAGE, (it.end - 1) // PAGE) for it in segments]
    check_spans([*spans, (KERNEL // PAGE - stack, KERNEL // PAGE - 1)] if stack else spans)
    pages = {}
    for it in segments:
        for at in range(it.address // PAGE * PAGE, it.end, PAGE):
            page = pages.setdefault(at, Page())
            page.flags |= it.flags
            low, high = max(at, it.address), min(at + PAGE, it.address + len(it.data))
            if low < high:
                page.data[low - at:high - at] = it.data[low - it.address:high - it.address]
    for at in range(KERNEL - stack * PAGE, KERNEL, PAGE):
        refuse(at in pages, f"it has bytes at {at:08X}, where its stack of {stack} pages lies")
        pages[at] = Page(flags=MAY_READ | MAY_WRITE)
    return {at: pages[at] for at in sorted(pages) if pages[at].flags & (MAY_RUN | MAY_READ | MAY_WRITE)}


def check_spans(spans):
    """Refuses more pages or regions than a process may have, as numbers of a first and a last page."""
    count = sum(last - first + 1 for first, last in spans)
    refuse(count > MOST_PAGES, f"{count} pages: a policy may have {MOST_PAGES}, and a process {MOST_ENTRIES}")
    pages = {page for first, last in spans for page in range(first, last + 1)}
    regions = sorted({page >> REGION_BITS - 12 for page in pages})
    if len(regions) > MOST_REGIONS:
        places = ", ".join(f"{it << REGION_BITS:08X}" for it in regions)
        raise Refused(f"{len(regions)} regions of 4 MiB, at {places}: a process may have {MOST_REGIONS}")
    refuse(len(pages) > MOST_ENTRIES, f"{len(pages)} pages: a process may have {MOST_ENTRIES}")
