"""What a server is asked at a place: each kind of request with its labels in a dump."""

from typing import Any, NamedTuple, Optional


class Kind(NamedTuple):
    """A kind of request: the label of its result, the first profile that has it, the properties of
    `item` edges from its result to places, and the kinds of monikers by which other projects are
    asked and answer."""

    name: str
    result: str
    profile: str
    properties: tuple[Optional[str], ...] = ()
    asks: tuple[str, ...] = ("import",)
    answers: tuple[str, ...] = ("export",)

    @property
    def edge(self) -> str:
        """The label of the edge to its result."""
        return f"textDocument/{self.name}"

    @property
    def shown(self) -> str:
        """Its result, as sentences call it."""
        return f"{self.result.removesuffix('Result')} result"

    def is_of(self, profile: str) -> bool:
        """Whether a profile has it."""
        return self.profile <= profile


BOTH = ("import", "export")
KINDS = (
    Kind("definition", "definitionResult", "1", (None, "definitions")),
    Kind("declaration", "declarationResult", "2", (None,)),
    Kind("implementation", "implementationResult", "2", (None,)),
    Kind("references", "referenceResult", "1", ("definitions", "references"), BOTH, BOTH),
    Kind("hover", "hoverResult", "1"),
)
BY_NAME = {kind.name: kind for kind in KINDS}
NUMBERED = sorted(KINDS, key=lambda kind: kind.profile)
"""The kinds by their numbers in tables: those of the first profile, then the others."""


def hover_text(contents: Any) -> str:
    """The text of hover contents."""
    if isinstance(contents, list):
        return "\n\n".join(hover_text(part) for part in contents)
    return str(contents if isinstance(contents, str) else contents["value"])
