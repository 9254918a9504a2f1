"""Symbols of SCIP indexes: their texts, and what is said of them."""

import re
from functools import lru_cache
from typing import NamedTuple, Optional

from codenav.dumps.scip.scip_pb2 import SymbolInformation

PART = re.compile(r"((?:[^ ]|  )*) ")


class Name(NamedTuple):
    """What a global symbol's text says: the scheme, the package's manager, name and version, each
    empty where nothing is said, and the descriptors."""

    scheme: str
    manager: str
    package: str
    version: str
    descriptors: str


def is_local(symbol: str) -> bool:
    """Whether a symbol is one of its document alone."""
    return symbol.startswith("local ")


@lru_cache(maxsize=1024)
def name_of(symbol: str) -> Optional[Name]:
    """The parts of a global symbol; None where it's no symbol with a scheme, a package and
    descriptors."""
    found, at = [], 0
    for _ in range(4):
        part = PART.match(symbol, at)
        if part is None:
            break
        found.append(part[1].replace("  ", " "))
        at = part.end()
    if len(found) == 4 and at < len(symbol):
        found.append(symbol[at:])
    else:
        found = symbol.split(" ", 4)  # a part that is left empty, where the grammar asks for a dot
    if len(found) != 5 or not found[4] or "\0" in symbol:
        return None
    manager, package, version = ("" if part == "." else part for part in found[1:4])
    return Name(found[0], manager, package, version, found[4])


def is_packaged(symbol: str) -> bool:
    """Whether a symbol is a global one of a package that has a name, which joins projects."""
    name = None if is_local(symbol) else name_of(symbol)
    return name is not None and name.package != ""


def markdown(information: SymbolInformation) -> str:
    """What is said of a symbol: its signature, as a block of code, and its documentation."""
    signature, blocks = information.signature_documentation, []
    if signature.text:
        fence = "`" * max(3, 1 + max(map(len, re.findall("`+", signature.text)), default=0))
        blocks.append(f"{fence}{signature.language.lower()}\n{signature.text}\n{fence}")
    documentation = "\n\n".join(information.documentation)
    return "\n\n---\n\n".join(filter(None, [*blocks, documentation]))
