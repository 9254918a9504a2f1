"""By which names other projects know the files of Python: the package of an installed one, and the
path below the folder that it's imported from."""

import os
import re
from functools import lru_cache
from importlib.metadata import packages_distributions, version
from typing import Mapping, Optional

from codenav.index.packages import usual
from codenav.index.python.modules import Modules

Home = tuple[str, str, str]
"""The package's name and version, which are empty where it isn't known, and the path."""


@lru_cache(maxsize=None)
def distributions() -> Mapping[str, list[str]]:
    """The installed packages, by the modules that each has."""
    return packages_distributions()


@lru_cache(maxsize=None)
def package_of(top: str) -> tuple[str, str]:
    """The name and the version of the one package that has a module."""
    names = sorted(set(distributions().get(top, ())))
    return (usual(names[0]), version(names[0])) if len(names) == 1 else ("", "")


def home_of(path: str, modules: Modules) -> Optional[Home]:
    """What is known of a file; None of one that isn't in a folder of modules."""
    if modules.is_own(path):
        root = modules.root(path)
        tops = (modules.folder, *(f"{modules.folder}/{name}" for name in ("src", "lib")))
        return "", "", os.path.relpath(path, root if root in tops else modules.folder)
    for folder in sorted(modules.paths, key=len, reverse=True):
        if path.startswith(folder + "/"):
            below = os.path.relpath(path, folder)
            is_other = folder.endswith("-packages")
            top = re.sub(r"(-stubs)?(/.*|\..*)", "", below)
            return *(package_of(top) if is_other else ("", "")), below
    return None
