"""JSON values of dumps: read as the server reads them, or as indexers mean them, and written."""

import json
import re
from typing import Any, Callable, Iterator, Union

MOST_LEVELS = 127
MOST_WHOLE = 1 << 64
MINUS_ZERO = re.compile(r"[:\[,\s]-0(?![0-9.eE])")
SURROGATE = re.compile(r"\\u[dD][89a-fA-F]")


def refuse_constant(text: str) -> None:
    """Refuses NaN, Infinity and -Infinity, which aren't JSON."""
    raise ValueError(text)


def finite(text: str) -> float:
    """A number with a fraction or an exponent; one beyond all that a double holds isn't read by the
    server either."""
    number = float(text)
    if number in (float("inf"), float("-inf")):
        raise ValueError(text)
    return number


DECODER = json.JSONDecoder(parse_constant=refuse_constant, parse_float=finite)
scan: Callable[[str, int], tuple[Any, int]] = getattr(DECODER, "scan_once")


class Reader:
    """Reads values, of which the server reads some otherwise: a number with a fraction of 0 is here
    a whole one."""

    def __init__(self) -> None:
        self.wholes = 0
        self.decoder = json.JSONDecoder(parse_constant=refuse_constant, parse_float=self.number)
        self.scan: Callable[[str, int], tuple[Any, int]] = getattr(self.decoder, "scan_once")

    def number(self, text: str) -> Union[int, float]:
        """A number with a fraction or an exponent, whole where it can be."""
        number = finite(text)
        if not number.is_integer() or abs(number) >= MOST_WHOLE:
            return number
        self.wholes += 1
        return int(number)

    def unlike(self, text: str, value: Any) -> Iterator[str]:
        """What the server reads otherwise in the value that was read last."""
        if self.wholes:
            self.wholes = 0
            yield "number with a fraction of 0, as `1.0`"
        if "-0" in text and MINUS_ZERO.search(text):
            numbers: list[str] = []
            json.loads(text, parse_int=numbers.append)
            if "-0" in numbers:
                yield "number -0, as 0"
        if "\\u" in text and SURROGATE.search(text) and not is_whole(written(value)):
            yield "half of a character, as U+FFFD"


def is_whole(text: str) -> bool:
    """Whether a text has no half of a surrogate pair, which UTF-8 can't have."""
    try:
        text.encode("utf-8")
    except UnicodeEncodeError:
        return False
    return True


def levels(value: Any) -> int:
    """How deep arrays and objects are nested in a value."""
    depth, row = 0, [value]
    while row:
        depth += 1
        inner = [
            part
            for one in row
            for part in (one.values() if isinstance(one, dict) else one)
            if isinstance(part, (dict, list))
        ]
        row = inner
    return depth


def written(value: Any) -> str:
    """A value, compact."""
    return json.dumps(value, ensure_ascii=False, separators=(",", ":"))


def text_of(value: Any) -> bytes:
    """The text of a value, compact; a half of a surrogate pair is written as U+FFFD."""
    text = written(value)
    try:
        return text.encode("utf-8")
    except UnicodeEncodeError:
        halves = text.encode("utf-16-le", "surrogatepass")
        return halves.decode("utf-16-le", "replace").encode("utf-8")
