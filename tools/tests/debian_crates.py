"""Copies of crates that Debian's librust-*-dev packages have, and what rust-analyzer of Debian's
rust-web-analyzer writes of them."""

import os
import re
import shutil
import subprocess
import tempfile
from contextlib import contextmanager
from typing import Iterator

REGISTRY = "/usr/share/cargo/registry"
ANALYZER = "/usr/bin/rust-analyzer"
CONFIG = f"""[source.crates-io]
replace-with = "debian"
[source.debian]
directory = "{REGISTRY}"
"""
DEV_DEPENDENCIES = re.compile(
    r"^\[(target\.[^\]]*\.)?dev-dependencies.*?(?=^\[|\Z)", re.DOTALL | re.MULTILINE
)


@contextmanager
def copied(crate: str) -> Iterator[str]:
    """The folder of a copy of a crate, without what only its tests need; beside it is room for
    other files. It goes with the context."""
    with tempfile.TemporaryDirectory() as folder:
        home = os.path.join(folder, crate)
        shutil.copytree(os.path.join(REGISTRY, crate), home)
        os.mkdir(os.path.join(folder, ".cargo"))
        manifest = os.path.join(home, "Cargo.toml")
        with open(manifest, encoding="utf-8") as file:
            text = DEV_DEPENDENCIES.sub("", file.read())
        os.remove(manifest)
        for path, body in (manifest, text), (os.path.join(folder, ".cargo", "config.toml"), CONFIG):
            with open(path, "w", encoding="utf-8") as file:
                file.write(body)
        yield home


def beside(home: str, name: str) -> str:
    """The path of a file beside a copy of a crate."""
    return os.path.join(os.path.dirname(home), name)


def dump_of(home: str) -> str:
    """The path of the dump that rust-analyzer writes of a crate."""
    with open(beside(home, "raw.lsif"), "wb") as out:
        subprocess.run(
            [ANALYZER, "lsif", "."], cwd=home, stdout=out, stderr=subprocess.DEVNULL, check=True
        )
    return out.name


def index_of(home: str) -> str:
    """The path of the SCIP index that rust-analyzer writes of a crate."""
    path = beside(home, "index.scip")
    subprocess.run(
        [ANALYZER, "scip", ".", "--output", path],
        cwd=home,
        stdout=subprocess.DEVNULL,
        stderr=subprocess.DEVNULL,
        check=True,
    )
    return path
