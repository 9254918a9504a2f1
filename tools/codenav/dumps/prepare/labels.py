"""The labels of a dump as numbers, and which of them edges lead from and to."""

from codenav.kinds import KINDS

(
    UNKNOWN,
    OTHER,
    METADATA,
    PROJECT,
    DOCUMENT,
    RANGE,
    RESULT_SET,
    DEFINITION,
    DECLARATION,
    IMPLEMENTATION,
    REFERENCE,
    HOVER,
    MONIKER,
    PACKAGE,
) = range(14)
NUMBERS = {
    "metaData": METADATA,
    "project": PROJECT,
    "document": DOCUMENT,
    "range": RANGE,
    "resultSet": RESULT_SET,
    **{kind.result: number for number, kind in enumerate(KINDS, DEFINITION)},
    "moniker": MONIKER,
    "packageInformation": PACKAGE,
}
LABELS = {number: label for label, number in NUMBERS.items()}
RESULT_OF = {kind.edge: NUMBERS[kind.result] for kind in KINDS}
SINGLE = {"next": RESULT_SET, **RESULT_OF, "packageInformation": PACKAGE}
"""What the edges lead to of which one leaves a vertex at most."""
MANY = {"moniker": MONIKER, "attach": MONIKER}
INTO = {**SINGLE, **MANY}
FROM = {
    label: (MONIKER,) if label in ("packageInformation", "attach") else (RANGE, RESULT_SET)
    for label in INTO
}
