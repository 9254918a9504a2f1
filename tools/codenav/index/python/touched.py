"""What the answers of a file are found by: other files, and the names of modules that are looked for."""

import os
from typing import Any

ENDINGS = (".py", ".pyi", ".pyc", ".so")
CACHE = "/__pycache__/"
"""A part of the paths of what Python keeps of files, and may write again at any time."""


def stem_of(path: str) -> str:
    """The name by which a file is imported."""
    folder, name = os.path.split(path)
    stem = name.partition(".")[0]
    return (os.path.basename(folder) if stem == "__init__" else stem).removesuffix("-stubs")


class Touched:
    """What is touched for a file: `read` has the files of the folder that are read, and its folders
    that are listed, and `names` those of modules that are looked for, there or not. `around` has what
    else is touched for any file: other files, and the folders in which modules are looked for."""

    def __init__(self, folder: str) -> None:
        self.top, self.ignored = folder.rstrip("/") + "/", ""
        self.read, self.names = set[str](), set[str]()
        self.around, self.told = set[str](), set[str]()

    def file(self, path: str) -> None:
        """Keeps that a file is read, or would be if it were there."""
        if not path.startswith(self.top):
            self.around.add(path)
        elif path not in self.read:
            if os.path.isfile(path):
                self.read.add(path)
            else:
                self.names.add(stem_of(path))

    def listed(self, path: str) -> None:
        """Keeps that a folder is listed."""
        self.around.add(path)
        if f"{path}/".startswith(self.top):
            self.read.add(path)

    def heard(self, event: str, parts: Any) -> None:
        """Keeps what Python says that any library opens or lists, but for what is of the call alone."""
        if event not in ("open", "os.scandir") or not isinstance(
            parts[0], (str, bytes, os.PathLike)
        ):
            return
        path = os.path.abspath(os.fsdecode(parts[0]))
        if not path.startswith(self.ignored):
            if event == "os.scandir":
                self.listed(path)
            elif path.endswith(ENDINGS) and CACHE not in path:
                self.file(path)

    def begin(self) -> None:
        """Begins with another file."""
        self.read, self.names = set(), set()

    def of_file(self) -> dict[str, list[str]]:
        """What is touched for the file; of what is around what wasn't told."""
        around = self.around - self.told
        self.told |= around
        return {"read": sorted(self.read), "names": sorted(self.names), "around": sorted(around)}
