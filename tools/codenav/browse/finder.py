"""Finds files by some of the letters of their names, as finders of editors do."""

from heapq import nlargest
from itertools import islice
from typing import Callable, Iterable, Optional

SEPARATORS = "/_-. "
MOST, MOST_SEEN = 50, 500


def score(name: str, wanted: str) -> Optional[int]:
    """How well a name has the letters that are wanted, in their order; None where it hasn't.

    Letters count that begin a word of the name or follow the one before, and more in the file's own
    name than in its folders. The name is searched from its end, since that is what people write.
    """
    low, at, points, last = name.lower(), len(name), 0, -1
    own = name.rfind("/") + 1
    for letter in reversed(wanted):
        at = low.rfind(letter, 0, at)
        if at < 0:
            return None
        begins = (
            at == 0 or name[at - 1] in SEPARATORS or name[at].isupper() and name[at - 1].islower()
        )
        points += 4 * (at + 1 == last) + 3 * begins + 2 * (at >= own) + 1
        last = at
    if low[own:].startswith(wanted):
        points += 10
    return points * 100 - min(len(name), 99)


def found(
    names: Iterable[str], text: str, is_shown: Callable[[str], bool] = lambda name: True
) -> list[str]:
    """The names that have the letters of a text, the best first, of files that are shown; blanks of
    the text don't count."""
    wanted = "".join(text.lower().split())
    scored = ((score(name, wanted), name) for name in names)
    best = nlargest(MOST_SEEN, ((points, name) for points, name in scored if points is not None))
    return list(islice((name for _, name in best if is_shown(name)), MOST))
