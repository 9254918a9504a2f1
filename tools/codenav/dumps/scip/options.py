"""How a SCIP index is read."""

from dataclasses import dataclass
from typing import Optional


@dataclass(frozen=True)
class ScipOptions:
    """How an index is read. `source` is the folder of the files that were indexed, for documents
    that count bytes or code points, and `encoding` what characters count in those that don't say
    so; `root` is the address, or the folder, that documents are below, and `without` has patterns of
    documents that are left out."""

    source: Optional[str] = None
    encoding: Optional[str] = None
    root: Optional[str] = None
    without: tuple[str, ...] = ()
    keep_file_ranges: bool = False
