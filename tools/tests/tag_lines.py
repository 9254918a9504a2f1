"""What the server reads in a tags file, said again in Python from docs/inside/DEFINITIONS.md and tags(5),
plainly: its tags, or its first fault."""

import re
from typing import Any, Optional, Union

Tag = dict[str, Any]
MOST_LINES, MOST_LINE, MOST_NUMBER = 100_000, 65_536, 2147483647
CONTROL = re.compile("[\x00-\x08\x0b-\x1f\x7f]")
ESCAPE = re.compile(r"\\(?:([trn\\abvf])|x(?!00)([0-7][0-9A-Fa-f]))")
LETTERS = dict(zip("trn\\abvf", "\t\r\n\\\a\b\v\f"))
PATTERN = r"/(?:[^\\/]|\\.)*/|\?(?:[^\\?]|\\.)*\?"
ADDRESS = re.compile(
    rf"((?P<number>[1-9][0-9]*)(?:;(?:{PATTERN}))?|{PATTERN})(?:;\"(?:\t(?P<fields>.*))?)?"
)
FIELD = re.compile("[A-Za-z][A-Za-z0-9]*")
PSEUDO, FORMAT, SORTED = "!_TAG_", "!_TAG_FILE_FORMAT", "!_TAG_FILE_SORTED"


def bad_escape(text: str) -> bool:
    """Whether a backslash begins no escape (T05)."""
    return "\\" in ESCAPE.sub("", text)


def decoded(text: str) -> str:
    """A text without its escapes."""
    return ESCAPE.sub(lambda own: LETTERS[own[1]] if own[1] else chr(int(own[2], 16)), text)


def pseudo_tag(line: str) -> Union[str, Tag]:
    """A pseudo-tag, or its fault."""
    parts = line.split("\t", 2)
    if len(parts) < 3:
        return "T04"
    return "T08" if parts[0] == FORMAT and parts[1] != "2" else {"pseudo": parts[:2]}


def with_fields(tag: Tag, fields: list[str]) -> Union[str, Tag]:
    """A tag with its kind and its other fields, or their fault."""
    kinds: list[str] = []
    for field in fields:
        name, colon, value = field.partition(":")
        if not colon or name == "kind":
            kinds.append(value if colon else field)
        else:
            tag["fields"].append([name, value])
    values = [*kinds, *(value for _, value in tag["fields"])]
    if any(map(bad_escape, values)):
        return "T05"
    if len(kinds) > 1 or "" in kinds or not all(FIELD.fullmatch(own) for own, _ in tag["fields"]):
        return "T07"
    tag["kind"] = decoded(kinds[0]) if kinds else None
    tag["fields"] = [[name, decoded(value)] for name, value in tag["fields"]]
    return tag


def tag_of(line: str) -> Union[str, Tag]:
    """What a line says by itself, or its fault."""
    if CONTROL.search(line):
        return "T03"
    if line.startswith(PSEUDO):
        return pseudo_tag(line)
    name, file, rest = (line.split("\t", 2) + ["", ""])[:3]
    if not name or not file or line.count("\t") < 2:
        return "T04"
    if bad_escape(name) or bad_escape(file):
        return "T05"
    found = ADDRESS.fullmatch(rest)
    if found is None or int(found["number"] or 0) > MOST_NUMBER:
        return "T06"
    texts = {"name": decoded(name), "file": decoded(file), "address": found[1], "written": name}
    fields = [] if found["fields"] is None else found["fields"].split("\t")
    return with_fields({**texts, "fields": []}, fields)


def read_tags(body: bytes) -> Union[str, list[Tag]]:
    """The tags of a file, each with its line, or the first fault as `line N: CODE`."""
    tags: list[Tag] = []
    is_sorted, lines = False, body.split(b"\n")
    for number, text in enumerate(lines if lines[-1] else lines[:-1], 1):
        if len(text) > MOST_LINE:
            return f"line {number}: T01"
        try:
            line = (text.removesuffix(b"\r") if number < len(lines) else text).decode()
        except UnicodeDecodeError:
            return f"line {number}: T02"
        found = tag_of(line)
        code = found if isinstance(found, str) else order_fault(found, tags, is_sorted, number)
        if isinstance(found, str) or code is not None:
            return f"line {number}: {code}"
        if "pseudo" not in found:
            tags.append({**found, "line": number})
        elif found["pseudo"][0] == SORTED:
            is_sorted = found["pseudo"][1] == "1"
    return tags


def order_fault(found: Tag, before: list[Tag], is_sorted: bool, number: int) -> Optional[str]:
    """T09 to T11 of a line after those before it."""
    if "pseudo" in found and before:
        return "T09"
    if is_sorted and before and "pseudo" not in found and found["written"] < before[-1]["written"]:
        return "T10"
    return "T11" if number > MOST_LINES else None
