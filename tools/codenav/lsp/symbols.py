"""Symbols as the Language Server Protocol 3.17 has them: their kinds, and which of many are shown."""

from typing import Any, Callable, NamedTuple, Optional

FILE, MODULE, NAMESPACE, PACKAGE, CLASS, METHOD, PROPERTY, FIELD = 1, 2, 3, 4, 5, 6, 7, 8
CONSTRUCTOR, ENUM, INTERFACE, FUNCTION, VARIABLE, CONSTANT, STRING = 9, 10, 11, 12, 13, 14, 15
KEY, MEMBER, STRUCT, EVENT, TYPE_PARAMETER = 20, 22, 23, 24, 26
CALLED = (METHOD, CONSTRUCTOR, FUNCTION)
OF_NAMES = {
    FILE: "file F",
    MODULE: "module program library unit",
    NAMESPACE: "namespace n section chapter subsection subsubsection title part",
    PACKAGE: "package P",
    CLASS: "class c implementation mixin record role object",
    METHOD: "method task procedure",
    PROPERTY: "property attribute slot",
    FIELD: "member field m",
    CONSTRUCTOR: "constructor",
    ENUM: "enum g",
    INTERFACE: "interface i trait protocol signature",
    FUNCTION: "function func f p prototype macro define d subroutine singletonMethod",
    VARIABLE: "variable var v local parameter externvar label",
    CONSTANT: "constant const C",
    STRING: "string heredoc",
    KEY: "key id anchor target",
    MEMBER: "enumerator e",
    STRUCT: "struct union s u",
    EVENT: "event signal",
    TYPE_PARAMETER: "typedef type t alias typealias typespec subtype",
}
KINDS = {name: kind for kind, names in OF_NAMES.items() for name in names.split()}
IN_LANGUAGES = {("Python", "member"): METHOD, ("Make", "target"): FUNCTION}
ORDER = (CLASS, STRUCT, INTERFACE, ENUM, FUNCTION, METHOD, CONSTRUCTOR, TYPE_PARAMETER, MODULE)


def kind_of(name: Optional[str], language: str = "") -> int:
    """The kind that ctags calls so, by its letter or its name."""
    return IN_LANGUAGES.get((language, name or ""), KINDS.get(name or "", VARIABLE))


class Rank(NamedTuple):
    """How well a name fits, the least first: how it has the text that is looked for, then whether
    it's in the file at hand, in its project, and of a kind that others are in."""

    fit: int
    is_other_file: bool
    project: int
    kind: int
    length: int
    name: str


def fit(name: str, text: str) -> Optional[int]:
    """How a name has a text, in whatever letters: it is the text, begins with it, has it where one
    of its words begins or elsewhere, or has its characters in their order; None where it hasn't."""
    low, wanted = name.lower(), text.lower()
    name = name if len(name) == len(low) else low
    at = low.find(wanted)
    if at == 0:
        return int(len(low) > len(wanted))
    while at > 0:
        is_begin = not name[at - 1].isalnum() or name[at].isupper() and not name[at - 1].isupper()
        if is_begin:
            return 2
        at = low.find(wanted, at + 1)
    if wanted in low:
        return 3
    rest = iter(low)
    return 4 if all(character in rest for character in wanted) else None


def ranked(
    tags: list[dict[str, Any]], text: str, project: int, is_here: Callable[[dict[str, Any]], bool]
) -> list[tuple[Rank, dict[str, Any]]]:
    """Tags whose names have a text, each with its rank; `project` is the place of theirs."""
    found = []
    fits: dict[str, Optional[int]] = {}
    for tag in tags:
        name = tag["name"]
        if name not in fits:
            fits[name] = fit(name, text)
        own, kind = fits[name], kind_of(tag["kind"])
        if own is not None:
            order = ORDER.index(kind) if kind in ORDER else len(ORDER)
            found.append((Rank(own, not is_here(tag), project, order, len(name), name), tag))
    return found
