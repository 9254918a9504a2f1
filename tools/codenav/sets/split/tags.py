"""Cuts a tags file by documents, as the parts of a set are cut: the tags of a file belong to the
part around its address."""

import os
import re
from bisect import bisect_right
from dataclasses import dataclass
from typing import Sequence

from codenav.addresses import serialized
from codenav.limits import MOST_BODY_BYTES, MOST_TAG_LINES
from codenav.texts.places import Maps, uri_of

ESCAPE = re.compile(rb"\\(?:x([0-9A-Fa-f]{2})|(.))", re.DOTALL)
LETTERS = dict(zip(b"abtnvfr", b"\a\b\t\n\v\f\r"))
PSEUDO = b"!_TAG_"


@dataclass
class CutTags:
    """The tags file of each part, empty where it has none, and how many tags were too many for
    their parts."""

    bodies: list[bytes]
    left_out: int = 0


def plain(found: re.Match[bytes]) -> bytes:
    """What an escape represents (tags(5))."""
    if found[1] is not None:
        return bytes([int(found[1], 16)])
    return bytes([LETTERS.get(found[2][0], found[2][0])])


def file_of(line: bytes) -> str:
    """The file that a tag names."""
    name = line.split(b"\t", 2)[1:2]
    return os.fsdecode(ESCAPE.sub(plain, name[0])) if name else ""


def cut_tags(path: str, folder: str, maps: Maps, firsts: Sequence[str]) -> CutTags:
    """Cuts the tags file that was made in a folder; `firsts` are the addresses that the parts begin
    with, in order."""
    ordered = [first.encode() for first in firsts]
    heads: list[bytes] = []
    lines: list[list[bytes]] = [[] for _ in firsts]
    sizes = [0] * len(firsts)
    parts: dict[str, int] = {}
    left_out = 0
    with open(path, "rb") as file:
        for line in file:
            if line.startswith(PSEUDO):
                heads.append(line)
                continue
            name = file_of(line)
            if name not in parts:
                uri = serialized(uri_of(os.path.join(folder, name), maps))
                parts[name] = max(bisect_right(ordered, uri.encode()) - 1, 0)
            part = parts[name]
            size = sizes[part] + len(line)
            room = MOST_BODY_BYTES - sum(map(len, heads))
            if len(lines[part]) + len(heads) >= MOST_TAG_LINES or size > room:
                left_out += 1
                continue
            lines[part].append(line)
            sizes[part] = size
    return CutTags([b"".join([*heads, *own]) if own else b"" for own in lines], left_out)
