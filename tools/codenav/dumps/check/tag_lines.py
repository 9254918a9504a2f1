"""What is said of a fault that `codenav check-tags` named: the line, what a line is to be, and by
which call ctags writes it so."""

from typing import BinaryIO, Iterator

from codenav.dumps.lsif.reading import MOST_ELEMENT_BYTES
from codenav.limits import MOST_TAG_LINES
from codenav.printed import line as printed

MOST_SHOWN = 240
CODES = {
    "T01": "a line has at most 65,536 bytes: leave generated files out by `--exclude=GLOB`.",
    "T02": "each line is UTF-8: files in another encoding are left out, or read by `--input-encoding=ENCODING`.",
    "T03": "no line has a control character but tabs between its parts.",
    "T04": "a line is a name, a file and an address, with tabs between them.",
    "T05": r"in a name or a file a `\` is followed by `\`, `t`, `r`, `n`, `a`, `b`, `v`, `f`, or `x` and two hexadecimal digits.",
    "T06": "an address is a line's number, or a pattern between `/` or `?`, and `;\"` is before the fields.",
    "T07": "a field is `name:value`, or one letter, the kind.",
    "T08": "the file's format is 2, so ctags is called without `--format=1`.",
    "T09": "lines that begin with `!_` stand before all others.",
    "T10": "names rise by their bytes: call ctags with `--sort=yes` in the locale C, and don't join files.",
    "T11": f"a file has at most {MOST_TAG_LINES:,} lines of tags: make a project of each of several folders.",
}
FORMS = {
    b"\x0c": "This is the form of Emacs: call ctags without `-e`, and not as etags.",
    b"{": "This is JSON: call ctags without `--output-format=json`.",
}
OTHER = "A list for people, as of `ctags -x`, has none."


def lines_of(file: BinaryIO) -> Iterator[bytes]:
    """The lines of a file; one that is over the limit of any is several."""
    file.seek(0)
    while line := file.readline(MOST_ELEMENT_BYTES):
        yield line


def explained(name: str, file: BinaryIO, number: int, code: str) -> list[str]:
    """The line of a number and, where names descend, the one before it; and what ctags should write.
    Nothing where there's no such line."""
    before = line = b""
    count = 0
    for count, line in enumerate(lines_of(file), 1):
        if count == number:
            break
        before = line
    if count != number:
        return []
    rows = [(number - 1, before)] if code == "T10" else []
    said = [f"{name}:{at}: {shown_line(one)}" for at, one in [*rows, (number, line)]]
    said.append(f"What ctags should write: {CODES[code]}")
    if number == 1 and code in ("T03", "T04"):
        said.append(FORMS.get(line[:1], OTHER))
    return said


def shown_line(line: bytes) -> str:
    """A line as it's printed: a long one is cut."""
    text = printed(line[: 4 * MOST_SHOWN].decode(errors="replace").rstrip("\n"))
    return text if len(text) <= MOST_SHOWN else f"{text[:MOST_SHOWN]} .. ({len(line)} bytes)"
