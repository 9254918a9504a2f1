"""Debian's packages that some tests need: without one they're skipped, with a line that names
it."""

import shutil
import subprocess
import unittest
from importlib.util import find_spec


def needs(module: str, package: str) -> None:
    """Skips a test, or all of a module, where a module isn't there."""
    try:
        found = find_spec(module) is not None
    except ModuleNotFoundError:
        found = False
    if not found:
        raise unittest.SkipTest(f"it needs Debian's package {package}")


def has_rust_analyzer() -> bool:
    """Whether rust-analyzer is here, and not only what calls one of a toolchain."""
    if not shutil.which("rust-analyzer") or not shutil.which("cargo"):
        return False
    return subprocess.run(["rust-analyzer", "--version"], capture_output=True).returncode == 0
