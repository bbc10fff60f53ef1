"""What `dsmon check` tells of a policy or an input that is refused, written from the rules of docs/policy_mistakes.md and docs/before_a_run.md
and not from the code.

Which text is refused, and for what cause, tools/reading_model.py says. The words of a cause stand in crates/ds_policy_reasons/src, each by its name.
"""
import re
from itertools import takewhile
from pathlib import Path

from reading_model import input_fault, policy_fault

SOURCES = Path(__file__).resolve().parent.parent / "crates" / "ds_policy_reasons" / "src"
# The keys of a policy, of a process, of a page and of a rule.
POLICY_KEYS = ["version", "frames", "rate", "process", "page", "rule", "start", "line", "name", "source", "part", "address", "right", "give", "until"]
SOURCE_GIVEN = ["The text reads as a source and not as a policy. `dsmon list` takes a source,", 'and a policy names it: `source = "one.s"` in a `[[page]]`.']
# The key of a policy that a cause is about.
KEYS = {
    "BAD_START": "start", "PROCESS_BAD_LINE": "line", "BAD_NAME": "name", "SAME_NAME": "name", "BAD_SOURCE": "source", "BAD_PART": "part",
    "RULE_BAD_PROCESS": "process", "RULE_BAD_ADDRESS": "address", "SAME_PLACE": "address", "FIFTH_REGION": "address",
    "RULE_BAD_RIGHT": "right", "PAGE_OF_NONE": "right", "BAD_PAGE": "page", "RULE_BAD_GIVE": "give",
    "UNTIL_OF_VERSION_1": "until", "UNTIL_OF_NONE": "until", "BAD_UNTIL": "until"}


def words(name):
    """The lines that tell of a cause."""
    texts = "".join((SOURCES / f"{file}.rt").read_text() for file in ("input_texts", "policy_texts", "rule_texts"))
    found = re.search(rf'\b{name}: &str = "\\\n(.*?)";', texts, re.S)
    return found[1].replace('\\"', '"').replace("\\\\", "\\").splitlines()


def shown(text, line, front):
    """A line of a text, and below it a caret after so much of it, where there is one."""
    rows = [b"    " + text.split(b"\n")[line - 1]]
    if front is not None:
        blanks = [chr(9) if it == "\t" else " " for it in front.decode("utf-8", "surrogateescape") if not "\udc80" <= it <= "\udcbf"]
        rows.append(b"    " + "".join(blanks).encode() + b"^")
    return rows


def input_told(text, pages):
    """All that is told of an input's bytes, as lines, or None where it is good."""
    fault = input_fault(text, pages)
    if fault is None:
        return None
    number, cause, at = fault
    line = text.split(b"\n")[number - 1]
    name = re.sub("(?<=[a-z])(?=[A-Z])", "_", cause).upper()
    return [f"20 InputFault {number}".encode(), *shown(text, number, None if at is None else line[:at]), *map(str.encode, words(name))]


def policy_told(text, toml_place):
    """All that is told of a policy's bytes, as lines, or None where it is good. Where they are no document the library tells the place."""
    fault = policy_fault(text)
    if fault is None:
        return None
    refusal, cause, array, number = fault
    which = f"in {array} {number} of the policy" if array in ("process", "page") else None
    place = toml_place if cause == "NOT_TOML" else (odd_key(text) or (None,))[1:] if cause == "OTHER_KEY" else reason_place(text, array, number, cause)
    rows = [refusal.encode()]
    if place:
        line, column = place
        front = text.split(b"\n")[line - 1].decode("utf-8", "surrogateescape")[: column - 1].encode("utf-8", "surrogateescape")
        rows += [f"in line {line}, column {column} of the policy".encode(), *shown(text, line, front)]
    return rows + [it.encode() for it in ([which] if which else []) + words(cause) + hint(text, cause)]


def hint(text, cause):
    """What is told besides: the first key that no policy has, with the one that may be meant by it, or that the text is a source."""
    if cause == "NOT_TOML":
        return SOURCE_GIVEN if reads_as_source(text) else []
    found = odd_key(text) if cause.endswith("OTHER_KEY") else None
    if not found:
        return []
    meant = next((it for it in POLICY_KEYS if is_meant(found[0], it)), None)
    return [f"`{found[0][:40]}` in line {found[1]} is no key of a policy. {f'Write `{meant}` in its place.' if meant else 'Leave it out.'}"]


def odd_key(text):
    """The first key at the beginning of a line that no policy has, its line and its column, or None."""
    for number, line in enumerate(text.split(b"\n"), 1):
        found = re.match(rb"[ \t\r]*\[*([A-Za-z0-9_-]+)[ \t\r]*[=\]]", line)
        if found and found[1].decode() not in POLICY_KEYS:
            return found[1].decode(), number, found.start(1) + 1
    return None


def is_meant(name, key):
    """Whether two words differ by case alone, by one letter, or by an `es` at the end of the first."""
    cut = {it[:at] + it[at + 1 :] for it in (name, key) for at in range(len(it))}
    by_a_letter = sum(a != b for a, b in zip(name, key)) == 1 if len(name) == len(key) else name in cut or key in cut
    return name.lower() == key.lower() or name == key + "es" or by_a_letter


def reads_as_source(text):
    """Whether the first line that says something before its comment is a label, a statement of these tables, or both."""
    said = [line.split(b"#")[0].strip() for line in text.split(b"\n")]
    first = next((it for it in said if it), b"")
    return re.fullmatch(rb"[A-Za-z_][A-Za-z0-9_]{0,31}:|([A-Za-z_][A-Za-z0-9_]{0,31}:\s*)?(nop|syscall|addiu \$\d,\s*\$\d,\s*\d+)", first) is not None


def reason_place(text, array, number, cause):
    """Where the key or the item stands that a reason is about."""
    lines = text.decode().split("\n")
    if cause.endswith("NOT_TABLE"):
        return key_place(lines, 0, array)
    if array:
        return item_place(lines, array, number, KEYS.get(cause))
    keys = {
        "BAD_VERSION": ["version"], "BAD_FRAMES": ["frames"], "BAD_RATE": ["rate"], "PROCESS_COUNT": ["process"],
        "PAGE_COUNT": ["page", "frames"], "RULE_COUNT": ["rule"]}
    found = filter(None, (key_place(lines, 0, it) for it in keys.get(cause, [])))
    too_many = {"PROCESS_COUNT": ("process", 101), "RULE_COUNT": ("rule", 1000)}
    return next(found, None) or (item_place(lines, *too_many[cause], None) if cause in too_many else None)


def key_place(lines, first, key):
    """Where a key stands at the beginning of a line, before any line that begins with a bracket."""
    for number, line in enumerate(takewhile(lambda it: not re.match(r"[ \t]*\[", it), lines[first:]), first + 1):
        if found := re.match(rf"([ \t]*){key}[ \t=]", line):
            return number, len(found[1]) + 1
    return None


def item_place(lines, array, number, key):
    """Where an item of an array stands, or a key of it."""
    root = key_place(lines, 0, array)
    if root:
        braces = [(at, column) for at, line in enumerate(lines[root[0] - 1 :], root[0]) for column, it in enumerate(line, 1) if it == "{"]
        return braces[number - 1] if number <= len(braces) else None
    headers = [at for at, line in enumerate(lines) if re.match(rf"[ \t]*\[\[{array}\]\]", line)]
    if number > len(headers):
        return None
    at = headers[number - 1]
    return key and key_place(lines, at + 1, key) or (at + 1, len(re.match(r"[ \t]*", lines[at])[0]) + 1)
