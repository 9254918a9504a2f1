"""A dump that is split into a folder, for tests."""

import os
from typing import Any

from codenav.dumps.scip.options import ScipOptions
from codenav.faults import Fault
from codenav.names import set_name
from codenav.progress import Quiet
from codenav.sets.split.split import SetFiles, SplitOptions, split


def split_file(path: str, folder: str, name: str = "", **options: Any) -> SetFiles:
    """Splits the prepared dump in a file, in one process, as a set that has the folder's name where
    none is given."""
    own: dict[str, Any] = {"name": set_name(name or os.path.basename(folder)), "jobs": 1}
    return split(path, SplitOptions(**own | options), folder, Quiet())


def split_index(path: str, folder: str, name: str, **options: Any) -> SetFiles:
    """Splits the index in a file."""
    from codenav.dumps.scip.messages import IndexFile

    own: dict[str, Any] = {"name": name, "jobs": 1}
    with open(path, "rb") as file:
        index = IndexFile(file, path)
        return split(index, SplitOptions(**own | options), folder, Quiet(), ScipOptions())


def said_of_split(path: str, folder: str, name: str = "", **options: Any) -> tuple[int, str]:
    """0 where a dump was split and 2 where it's refused, and what is said."""
    try:
        return 0, "".join(f"{line}\n" for line in split_file(path, folder, name, **options).lines())
    except Fault as fault:
        return 2, f"{fault}\n"
