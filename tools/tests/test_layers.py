"""Which module of the tools may import which, what only a command line may use, and how long a
module may be. What breaks a rule today is listed by name; a name that breaks none any more has to
go from its list, so the lists only get shorter."""

import ast
import unittest
from pathlib import Path

from tests.servers import TOP

FOLDER = Path(TOP, "tools", "codenav")
MOST_LINES = 300
# each layer, which is the package of its name or for `ground` the modules of none, and the layers
# that it may import; `cli` may import all
LAYERS = {
    "ground": "",
    "texts": "ground",
    "client": "ground",
    "dumps": "ground texts",
    "index": "ground texts dumps lsp",
    "sets": "ground texts client dumps",
    "settings": "ground texts client sets",
    "asking": "ground texts client sets settings",
    "publishing": "ground texts client dumps index sets settings",
    "lsp": "ground texts settings asking",
    "browse": "ground texts settings asking",
    "service": "ground client",
    "cli": "",
}
IMPORTS = ""
LONG = ""
USES = ""


def modules() -> dict[str, Path]:
    """The modules that have code, by their names."""
    paths = (path for path in FOLDER.rglob("*.py") if not path.name.startswith("__"))
    return {".".join(path.relative_to(FOLDER).with_suffix("").parts): path for path in paths}


MODULES = modules()


def tree_of(name: str) -> ast.Module:
    """The syntax of a module."""
    return ast.parse(MODULES[name].read_text("utf-8"))


def layer_of(name: str) -> str:
    """The layer of a module."""
    package, dot, _ = name.partition(".")
    return package if dot else "ground"


def imported(name: str) -> set[str]:
    """The modules of the tools that a module imports."""
    found = set()
    for node in ast.walk(tree_of(name)):
        if isinstance(node, ast.ImportFrom) and (node.module or "").startswith("codenav"):
            base = (node.module or "").removeprefix("codenav").removeprefix(".")
            for part in node.names:
                found |= {base, f"{base}.{part.name}".removeprefix(".")} & MODULES.keys()
    return found


def may_import(name: str, other: str) -> bool:
    """Whether the layers let a module import another."""
    own, its = layer_of(name), layer_of(other)
    return own in (its, "cli") or its in LAYERS[own].split()


def used(name: str) -> set[str]:
    """What a module uses that only a command line may."""
    found = set()
    for node in ast.walk(tree_of(name)):
        if isinstance(node, ast.Import) and any(own.name == "argparse" for own in node.names):
            found.add("argparse")
        if (
            isinstance(node, ast.Call)
            and isinstance(node.func, ast.Name)
            and node.func.id == "print"
        ):
            found.add("print")
        if isinstance(node, ast.Attribute) and isinstance(node.value, ast.Name):
            if node.value.id == "sys" and node.attr in ("exit", "argv"):
                found.add(f"sys.{node.attr}")
    return found


class Layers(unittest.TestCase):
    def compare(self, found: list[str], listed: str) -> None:
        """Has what breaks a rule be what's listed."""
        self.assertEqual(sorted(found), sorted(filter(None, listed.split("\n"))))

    def test_imports(self) -> None:
        """Along the arrows alone, and so in no circle of layers."""
        found = [
            f"{name} -> {other}"
            for name in MODULES
            for other in imported(name)
            if not may_import(name, other)
        ]
        self.compare(found, IMPORTS)

    def test_circles(self) -> None:
        """No layer may import one that may import it, by whatever way."""
        for start in LAYERS:
            seen, todo = set[str](), LAYERS[start].split()
            while todo:
                layer = todo.pop()
                self.assertNotEqual(layer, start)
                todo += [own for own in LAYERS[layer].split() if own not in seen]
                seen.add(layer)

    def test_command_lines(self) -> None:
        """Words are read, lines printed and the process ended in `cli` alone."""
        own = [name for name in MODULES if layer_of(name) != "cli"]
        found = [f"{name}: {use}" for name in own for use in used(name)]
        self.compare(found, USES)

    def test_lengths(self) -> None:
        counts = {name: path.read_text("utf-8").count("\n") for name, path in MODULES.items()}
        found = [name for name, count in counts.items() if count > MOST_LINES]
        self.compare(found, LONG)


if __name__ == "__main__":
    unittest.main()
