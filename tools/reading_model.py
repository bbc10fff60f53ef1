"""Which policy and which input is refused, and for what cause, written from the rules of docs/policy.md, docs/policy_mistakes.md and
docs/before_a_run.md, and not from the code.

What TOML is comes from Python's own reader, `tomllib`, with integers of 64 bits.
"""
import re
import tomllib
from collections import namedtuple

MOST_TICKS, MOST_EVENTS, MOST_ENTRIES, MOST_REGIONS = 1_000_000_000, 4096, 256, 4
# Why a policy is refused: its refusal, the name of the cause, and the array and the item that it is about, if it is of one.
Fault = namedtuple("Fault", "refusal cause array item", defaults=(None, None))


def are_of_64_bits(value):
    if isinstance(value, (dict, list)):
        return all(map(are_of_64_bits, value.values() if isinstance(value, dict) else value))
    return type(value) is not int or -(2**63) <= value < 2**63


def is_integer(value, low, high):
    """Whether a value is an integer in these bounds. A boolean is none, and neither is a float."""
    return type(value) is int and low <= value <= high


def is_text(value, form):
    return isinstance(value, str) and re.fullmatch(form, value) is not None


def is_list(root, key, low, high):
    rows = root.get(key, [])
    return isinstance(rows, list) and low <= len(rows) <= high


ROOT = {  # the root keys in their order, each with the cause where all of its value is wrong
    "version": ("BAD_VERSION", lambda root: is_integer(root.get("version"), 1, 2)),
    "frames": ("BAD_FRAMES", lambda root: is_integer(root.get("frames"), 1, 1024)),
    "rate": ("BAD_RATE", lambda root: "rate" not in root or is_integer(root["rate"], 0, 15) and root["rate"] not in (1, 2)),
    "process": ("PROCESS_COUNT", lambda root: is_list(root, "process", 1, 100)),
    "page": ("PAGE_COUNT", lambda root: is_list(root, "page", 0, root["frames"])),
    "rule": ("RULE_COUNT", lambda root: is_list(root, "rule", 0, 999)),
}


def policy_fault(text):
    """The fault of a policy's bytes, or None where it is good."""
    try:
        root = tomllib.loads(text.decode("utf-8"))
    except ValueError:
        root = None
    if root is None or not are_of_64_bits(root):
        return Fault("8 BadToml", "NOT_TOML")
    if not ROOT.keys() >= root.keys():
        return Fault("10 Limit key", "OTHER_KEY")
    for key, (cause, is_good) in ROOT.items():
        if not is_good(root):
            return Fault(f"10 Limit {key}", cause)
        for at, row in enumerate(root.get(key, []) if key in ITEMS else []):
            wrong = (cause for cause, is_good in ITEMS[key] if not is_good(root, at, row))
            if found := next(wrong, None) if isinstance(row, dict) else f"{key.upper()}_NOT_TABLE":
                return Fault(f"9 BadRule {at + 1}" if key == "rule" else f"10 Limit {key}", found, key, at + 1)
    return None


def policy_refusal(text):
    """The refusal of a policy's bytes, as `10 Limit frames`, or None where it is good."""
    fault = policy_fault(text)
    return fault and fault.refusal


def sources(text):
    """The names of the sources of a policy's bytes in their order, where it is good."""
    root = {} if policy_fault(text) else tomllib.loads(text.decode("utf-8"))
    return [it["source"] for it in root.get("page", []) if "source" in it]


def own(root, at, row):
    """The addresses of the rules before one that are of its process."""
    return [it["address"] for it in root["rule"][:at] if it["process"] == row["process"]]


ITEMS = {  # of each array the causes for which an item is refused in their order, each with what is true of one that is good
    "process": [
        ("PROCESS_OTHER_KEY", lambda root, at, row: row.keys() <= {"start", "line"}),
        ("BAD_START", lambda root, at, row: is_integer(row.get("start"), 0, 2**32 - 1)),
        ("PROCESS_BAD_LINE", lambda root, at, row: is_integer(row.get("line"), 0, 3))],
    "page": [
        ("PAGE_OTHER_KEY", lambda root, at, row: row.keys() <= {"name", "source", "part"}),
        ("BAD_NAME", lambda root, at, row: is_text(row.get("name"), "[a-z0-9]{1,16}")),
        ("BAD_SOURCE", lambda root, at, row: row.keys() == {"name"} or is_text(row.get("source"), "[A-Za-z0-9._/-]{1,64}")),
        ("BAD_PART", lambda root, at, row: row.keys() == {"name"} or is_integer(row.get("part"), 0, 15)),
        ("SAME_NAME", lambda root, at, row: row["name"] not in [it["name"] for it in root["page"][:at]])],
    "rule": [
        ("RULE_OTHER_KEY", lambda root, at, row: row.keys() <= {"process", "address", "right", "page", "give", "until"}),
        ("UNTIL_OF_VERSION_1", lambda root, at, row: root["version"] != 1 or "until" not in row),
        ("RULE_BAD_PROCESS", lambda root, at, row: is_integer(row.get("process"), 1, len(root["process"]))),
        ("RULE_BAD_ADDRESS", lambda root, at, row: is_integer(row.get("address"), 0, 2**31 - 1) and row["address"] % 4096 == 0),
        ("RULE_BAD_RIGHT", lambda root, at, row: row.get("right") in ("none", "read", "write")),
        ("PAGE_OF_NONE", lambda root, at, row: row["right"] != "none" or not row.keys() & {"page", "give"}),
        ("UNTIL_OF_NONE", lambda root, at, row: row["right"] != "none" or "until" not in row),
        ("BAD_PAGE", lambda root, at, row: row["right"] == "none" or row.get("page") in [it["name"] for it in root.get("page", [])]),
        ("RULE_BAD_GIVE", lambda root, at, row: type(row.get("give", False)) is bool),
        ("BAD_UNTIL", lambda root, at, row: is_integer(row.get("until", 1), 1, MOST_TICKS)),
        ("SAME_PLACE", lambda root, at, row: row["address"] not in own(root, at, row)),
        ("TOO_MANY_RULES", lambda root, at, row: len(own(root, at, row)) < MOST_ENTRIES),
        ("FIFTH_REGION", lambda root, at, row: len({it >> 22 for it in [*own(root, at, row), row["address"]]}) <= MOST_REGIONS)]}


WORDS = {  # the causes of an event's words after its name, in their order
    "key": ("BadLine", "BadBytes"), "grant": ("BadProcess", "BadAddress", "UnknownPage", "BadRight", "BadGive"),
    **dict.fromkeys(("narrow", "revoke", "drop"), ("BadProcess", "BadAddress")), **dict.fromkeys(("resume", "stop"), ("BadProcess",))}
FORMS = {
    "BadLine": "[0-3]", "BadBytes": "(?:[0-9A-Fa-f]{2}){1,256}", "BadProcess": "[0-9]{1,10}", "BadAddress": "[0-9A-Fa-f]{8}", "BadRight": "read|write", "BadGive": "give"}


def input_fault(text, pages):
    """The line of an input's bytes that is refused, what is wrong with it, and where that begins in it, or None where it is good."""
    latest = events = 0
    for number, line in enumerate(text.split(b"\n"), 1):
        if not line or line.startswith(b"#"):
            continue
        found = layout_fault(line) or words_fault(line.decode("latin-1").split(" "), pages)
        time = 0 if found else int(line.split(b" ")[0])
        if not found and time < latest:
            found = "EarlierTime", 0
        if not found and events == MOST_EVENTS:
            found = "TooManyEvents", None
        if found:
            return number, *found
        latest, events = time, events + 1
    return None


def input_refusal(text, pages):
    """The refusal of an input's bytes under a policy with these pages, as `20 InputFault 3`, or None where it is good."""
    fault = input_fault(text, pages)
    return fault and f"20 InputFault {fault[0]}"


def layout_fault(line):
    for byte, cause in ((b"\r", "CarriageReturn"), (b"\t", "Tab")):
        if byte in line:
            return cause, line.index(byte)
    if line.startswith(b" "):
        return "BlankAtStart", 0
    if line.endswith(b" "):
        return "BlankAtEnd", len(line) - 1
    return ("TwoBlanks", line.index(b"  ")) if b"  " in line else None


def words_fault(row, pages):
    """What is wrong with the words of a line, and where that word begins."""
    if not is_text(row[0], "[0-9]{1,10}") or int(row[0]) > MOST_TICKS:
        return "BadTime", 0
    if len(row) == 1:
        return "WordCount", None
    if row[1] not in WORDS:
        return "UnknownEvent", len(row[0]) + 1
    causes = WORDS[row[1]]
    if len(row) - 2 not in ((4, 5) if row[1] == "grant" else (len(causes),)):
        return "WordCount", None
    for i, (cause, word) in enumerate(zip(causes, row[2:]), 2):
        is_good = word in pages if cause == "UnknownPage" else is_text(word, FORMS[cause]) and (cause != "BadProcess" or int(word) < 2**32)
        if not is_good:
            return cause, len(" ".join(row[:i])) + 1
    return None
