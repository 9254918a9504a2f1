"""Which package a folder is of by its manifest, and which one a file outside of it, as far as the
machine's own lists say."""

import json
import os
import re
import subprocess
from functools import lru_cache
from glob import escape, glob
from tomllib import TOMLDecodeError, loads
from typing import NamedTuple, Optional

from codenav.faults import BadCall

MOST_SECONDS = 60
VERSION = r"(?:AC_INIT\([^,)]*,\s*\[?|project\([^)]*VERSION\s+|^\s*version\s*:\s*')([0-9][\w.]*)"


class Package(NamedTuple):
    """A package as monikers name it."""

    manager: str
    name: str
    version: str


def said(*line: str, cwd: Optional[str] = None) -> str:
    """What a program prints; nothing where it can't be called."""
    try:
        run = subprocess.run(
            line,
            cwd=cwd,
            stdin=subprocess.DEVNULL,
            capture_output=True,
            text=True,
            errors="replace",
            timeout=MOST_SECONDS,
        )
    except (OSError, subprocess.TimeoutExpired):
        return ""
    return run.stdout


def text_in(folder: str, *names: str) -> str:
    """The texts of files of a folder, one behind the other."""
    texts = []
    for name in names:
        path = os.path.join(folder, name)
        if os.path.isfile(path):
            with open(path, encoding="utf-8", errors="replace") as file:
                texts.append(file.read())
    return "\n".join(texts)


def first(pattern: str, text: str) -> str:
    """What a pattern's group has first in a text; nothing where it isn't there."""
    found = re.search(pattern, text, re.MULTILINE)
    return found[1] if found else ""


def told(text: str) -> Package:
    """The package that a call names. Raises BadCall."""
    parts = text.split()
    if len(parts) != 3:
        raise BadCall(f"--package {text}: it's 'MANAGER NAME VERSION', as 'pkg-config yaml 0.2.5'")
    return Package(*parts)


def tag_of(folder: str) -> str:
    """The last tag before what is checked out at a folder that is the top of a repository."""
    if not os.path.exists(os.path.join(folder, ".git")):
        return ""
    return said("git", "describe", "--tags", "--abbrev=0", cwd=folder).strip()


def go_package(folder: str) -> Optional[Package]:
    """The module of a folder; None where its name or its version isn't known."""
    module, tag = first(r"^module\s+(\S+)", text_in(folder, "go.mod")), tag_of(folder)
    return Package("gomod", module, tag) if module and tag else None


def c_package(folder: str) -> Optional[Package]:
    """The package of a folder of C by its one template of a `.pc` file; None where the name or the
    version isn't known."""
    configs = sorted(glob(os.path.join(escape(folder), "*.pc.in")))
    text = text_in(folder, "configure.ac", "CMakeLists.txt", "meson.build")
    version = first(VERSION, text) or tag_of(folder).removeprefix("v")
    if len(configs) != 1 or not version:
        return None
    return Package("pkg-config", os.path.basename(configs[0]).removesuffix(".pc.in"), version)


@lru_cache(maxsize=None)
def crate_in(folder: str) -> Optional[Package]:
    """The crate whose Cargo.toml is in a folder; None where it has no name or no version of its own or of
    a workspace above."""
    try:
        crate = loads(text_in(folder, "Cargo.toml")).get("package") or {}
        name, version = crate.get("name"), crate.get("version", "0.0.0")
        above = folder
        while isinstance(version, dict) and above != os.path.dirname(above):
            above = os.path.dirname(above)
            of = loads(text_in(above, "Cargo.toml")).get("workspace") or {}
            version = of.get("package", {}).get("version", version)
    except (TOMLDecodeError, AttributeError):
        return None
    if not isinstance(name, str) or not isinstance(version, str):
        return None
    return Package("cargo", name, version)


@lru_cache(maxsize=None)
def crate_of(path: str) -> Optional[tuple[Package, str]]:
    """The crate that a file is of, by the nearest Cargo.toml above it, and its path below that."""
    above = os.path.dirname(path)
    while above != os.path.dirname(above):
        crate = crate_in(above)
        if crate:
            return crate, os.path.relpath(path, above)
        above = os.path.dirname(above)
    return None


def usual(name: str) -> str:
    """The name of a package of Python in its usual spelling."""
    return re.sub(r"[-_.]+", "-", name).lower()


def pip_package(folder: str) -> Optional[Package]:
    """The package of a folder of Python by its manifests; None where its name or its version isn't there,
    nor a tag."""
    try:
        manifest = loads(text_in(folder, "pyproject.toml"))
        poetry = manifest.get("tool", {}).get("poetry", {})
        found = [dict(manifest.get("project", {})), dict(poetry)]
    except (TOMLDecodeError, AttributeError, TypeError, ValueError):
        found = []
    for file, mark in (("PKG-INFO", ":"), ("setup.cfg", "=")):
        text = text_in(folder, file)
        pattern = rf"(?i)^{{}}[ \t]*{mark}[ \t]*([\w.+!-]+)[ \t]*$"
        found.append({key: first(pattern.format(key), text) for key in ("name", "version")})
    name, version = (
        next((str(own[key]) for own in found if own.get(key)), "") for key in ("name", "version")
    )
    version = version or tag_of(folder).removeprefix("v")
    return Package("pip", usual(name), version) if name and version else None


def npm_package(folder: str) -> Optional[Package]:
    """The package of a folder's package.json; None where its name or its version isn't there."""
    try:
        found = json.loads(text_in(folder, "package.json"))
        name, version = found["name"], found["version"]
    except (ValueError, TypeError, KeyError):
        return None
    is_whole = isinstance(name, str) and isinstance(version, str) and name and version
    return Package("npm", name, version) if is_whole else None


@lru_cache(maxsize=None)
def package_of_header(path: str) -> Optional[Package]:
    """The package of an installed header: that of the one `.pc` file beside it, or Debian's."""
    owner = said("dpkg", "-S", path).partition(":")[0]
    if not owner:
        return None
    configs = [line for line in said("dpkg", "-L", owner).split() if line.endswith(".pc")]
    if len(configs) == 1:
        name = os.path.basename(configs[0]).removesuffix(".pc")
        return Package("pkg-config", name, first(r"^Version:\s*(\S+)", text_in("/", configs[0])))
    return Package("deb", owner, said("dpkg-query", "-f", "${Version}", "-W", owner))


@lru_cache(maxsize=None)
def go_modules(folder: str) -> tuple[tuple[str, Package], ...]:
    """The folders of the modules that a Go module is built with, the longest first, and Go's own."""
    text, decoder, found = (
        said("go", "list", "-m", "-json", "all", cwd=folder).strip(),
        json.JSONDecoder(),
        [],
    )
    while text:
        module, end = decoder.raw_decode(text)
        text = text[end:].strip()
        if module.get("Dir") and not module.get("Main"):
            package = Package("gomod", module["Path"], module.get("Version", ""))
            found.append((os.path.realpath(module["Dir"]), package))
    own = said("go", "env", "GOROOT", "GOVERSION", cwd=folder).split()
    if len(own) == 2:
        root = os.path.realpath(os.path.join(own[0], "src"))
        found.append((root, Package("gomod", "std", own[1])))
    return tuple(sorted(found, key=lambda row: -len(row[0])))
