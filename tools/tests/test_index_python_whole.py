"""Tests of `index` on Python as a whole: asked of a server, over jedi where that's installed, and over one
that stands in for it and fails."""

import os
import signal
import subprocess
import textwrap
import unittest

from tests.servers import command
from tests.test_index import OnFolder, is_running, vertices, wait_for

JEDI = """
import os, sys, time
if os.environ.get("FAULT") == "none":
    raise ModuleNotFoundError("no jedi", name="jedi")
class settings: pass
class Project:
    def __init__(self, *_, **__): pass
class Name:
    def __init__(self, script, leaf): self.leaf = leaf
    def goto(self, **_):
        fault = os.environ.get("FAULT", "").partition(" ")
        if self.leaf.value == fault[2]:
            with open(os.environ["FAILED"], "a") as file: file.write(f"{os.getpid()} ")
            if fault[0] == "end": os._exit(1)
            if fault[0] == "crash": os.abort()
            if fault[0] == "hang":
                while True: pass
            if fault[0] == "error": raise KeyError(fault[2])
            if fault[0] == "deep": return self.goto()
            if fault[0] == "memory": kept = bytearray(400 << 20); time.sleep(60)
            if fault[0] == "print": print("out"); sys.__stdout__.flush()
        return []
class Script:
    def __init__(self, text, path, **_):
        self.lines, self._inference_state, self._module_node = text.split("\\n"), self, self
    def reset_recursion_limitations(self): pass
    def _get_module_context(self): return self
    def create_name(self, leaf): return leaf
    def get_name_of_position(self, at):
        leaf = Leaf()
        text = self.lines[at[0] - 1][at[1]:]
        leaf.value, leaf.start_pos = text.split("(")[0].strip(), at
        return leaf
class Leaf: pass
"""
STAND_IN = {
    "jedi/__init__.py": JEDI,
    "jedi/api/__init__.py": "",
    "jedi/api/classes.py": "from jedi import Name",
    "jedi/api/environment.py": "class InterpreterEnvironment: pass",
    "jedi/inference/__init__.py": "class InferenceState: parse_and_get_code = None",
    "jedi/inference/compiled/__init__.py": "",
    "jedi/inference/compiled/subprocess/__init__.py": "",
    "jedi/inference/compiled/subprocess/functions.py": "get_module_info = None",
    "jedi/inference/gradual/__init__.py": "from types import SimpleNamespace\n"
    "typeshed = SimpleNamespace(try_to_load_stub_cached=None)",
}
"""What has the parts of jedi that are called, finds nothing, and fails as FAULT says at a name."""


def plain(text: str) -> dict[str, str]:
    """The contents of a hover."""
    return {"kind": "plaintext", "value": text}


class OnPython(OnFolder):
    """Tests over files of Python."""

    files: dict[str, str] = {}

    def setUp(self) -> None:
        super().setUp()
        for name, text in self.files.items():
            with open(os.path.join(self.folder, name), "w", encoding="utf-8") as file:
                file.write(textwrap.dedent(text).lstrip("\n"))


class Answers(OnPython):
    files = {
        "pyproject.toml": '[project]\nname = "My_Shapes"\nversion = "1.2"\n',
        "src/shapes/__init__.py": 'x = 1\nfrom .base import Shape as Shape\n"""no docstring"""\n',
        "src/shapes/base.py": '''
            """Shapes."""
            import typing
            class Shape:
                """A shape."""
                side: int
                def area(self) -> int:
                    """How large it is."""
                    raise NotImplementedError
                @typing.overload
                def twice(self, a: int) -> int: ...
                @typing.overload
                def twice(self, a: str) -> str: ...
                def twice(self, a): return self.area()
            ''',
        "src/shapes/box.py": """
            from shapes import Shape
            import shapes
            class Box(Shape):
                def __init__(self):
                    self.side = 1
                def area(self): return self.side
                def grow(self): self.side = 2
            def use():
                return Box().area(), shapes.x
            """,
    }

    def test_answers(self) -> None:
        status, said = self.index()
        self.assertEqual(status, 0, said)
        base, box = "src/shapes/base.py", "src/shapes/box.py"
        self.assert_answers(
            {
                ("definition", box, 2, 10): ["base.py:2"],
                ("definition", box, 0, 5): ["__init__.py:0"],
                ("definition", "src/shapes/__init__.py", 0, 0): ["__init__.py:0"],
                ("references", "src/shapes/__init__.py", 0, 0): ["__init__.py:0", "box.py:8"],
                ("definition", box, 8, 17): ["box.py:5"],
                ("definition", box, 5, 34): ["box.py:4", "box.py:6"],
                ("references", box, 6, 25): ["box.py:4", "box.py:5", "box.py:6"],
                ("implementation", base, 2, 6): ["box.py:2"],
                ("implementation", base, 5, 8): ["box.py:5"],
                ("implementation", base, 12, 36): ["box.py:5"],
                ("definition", base, 9, 8): ["base.py:12"],
                ("declaration", base, 12, 8): ["base.py:11", "base.py:9"],
                ("hover", box, 2, 10): plain("class Shape\n\nA shape."),
                ("hover", base, 12, 36): plain("def area(self) -> int\n\nHow large it is."),
            }
        )
        found = {(one["identifier"], one["kind"]) for one in vertices(self.out, "moniker")}
        wanted = {"shapes", "shapes.x", "shapes.base", "shapes.base.Shape.area", "shapes.box.Box"}
        self.assertLessEqual({(name, "export") for name in wanted}, found)
        self.assertNotIn("shapes.base.Shape.area.self", {name for name, _ in found})
        packages = vertices(self.out, "packageInformation")
        wanted_packages = [("pip", "my-shapes", "1.2")]
        self.assertEqual(
            [(p["manager"], p["name"], p["version"]) for p in packages], wanted_packages
        )


class Joined(OnPython):
    """A library, and a program with an installed copy of it, as two projects."""

    files = {
        "lib/pyproject.toml": '[project]\nname = "My.Lib"\nversion = "1.2"\n',
        "lib/my_lib/__init__.py": "from .core import Thing as Thing\n",
        "lib/my_lib/core.py": "class Thing:\n    size = 1\n    def run(self): return self.size\n",
        "user/main.py": "import my_lib\nfrom my_lib import Thing\nThing().run()\nmy_lib.core.Thing\n",
        "user/old/my_lib/core.py": "",
        "site-packages/my_lib/__init__.py": "from .core import Thing as Thing\n",
        "site-packages/my_lib/core.py": "# installed\n\nclass Thing:\n    size = 1\n"
        "    def run(self): return self.size\n",
        "site-packages/my_lib-1.2.dist-info/METADATA": "Name: My.Lib\nVersion: 1.2\n",
        "site-packages/my_lib-1.2.dist-info/top_level.txt": "my_lib\n",
    }

    def setUp(self) -> None:
        super().setUp()
        self.whole, self.folder = self.folder, os.path.join(self.folder, "lib")
        status, said = self.index()
        self.assertEqual(status, 0, said)
        self.upload("lib")
        self.folder = os.path.join(self.whole, "user")

    def used(self, *words: str) -> str:
        """What a call says that indexes the program, which is uploaded."""
        installed = os.path.join(self.whole, "site-packages")
        status, said = self.index(*words, PYTHONPATH=installed)
        self.assertEqual(status, 0, said)
        self.upload("app")
        return said

    def test_both_ways(self) -> None:
        """A use leads to the library's project alone, and that knows the use."""
        self.used("--on-server", "my_lib")
        uses = [
            "__init__.py:0",
            "__init__.py:0",
            "core.py:0",
            "main.py:1",
            "main.py:2",
            "main.py:3",
        ]
        self.assert_answer(
            {
                ("definition", "main.py", 2, 0): ["core.py:0"],
                ("definition", "main.py", 2, 8): ["core.py:2"],
                ("definition", "main.py", 3, 12): ["core.py:0"],
                ("definition", "main.py", 0, 7): ["__init__.py:0"],
                ("references", "main.py", 2, 0): uses,
            }
        )
        uris = {one["uri"] for one in vertices(self.out, "document")}
        self.assertEqual(len(uris), 2)

    def test_not_told(self) -> None:
        """A use of a package that isn't told to be on the server leads to the installed copy."""
        said = self.used()
        self.assertRegex(
            said, "to mind: .*/site-packages/my_lib/core.py is led to, and .*/old/my_lib/core.py"
        )
        self.assert_answer({("definition", "main.py", 2, 8): ["core.py:4"]})


class Failing(OnPython):
    files = {
        "good.py": "def f(a):\n    return f(f)\n",
        "bad.py": "def g(a):\n    a.well()\n    a.worse()\n    return g\n",
        "last.py": "from good import f\nf(f)\n",
        "broken.py": "def f(:\n",
        "old.py": "def f():\r    pass\n",
    }

    def setUp(self) -> None:
        super().setUp()
        self.library = os.path.join(self.home, "library")
        for name, text in STAND_IN.items():
            path = os.path.join(self.library, name)
            os.makedirs(os.path.dirname(path), exist_ok=True)
            with open(path, "w", encoding="utf-8") as file:
                file.write(text)

    def with_fault(self, fault: str, *words: str) -> tuple[int, str]:
        """A call over the library that stands in for jedi."""
        return self.index(*words, PYTHONPATH=self.library, FAULT=fault)

    def test_left_out(self) -> None:
        """A file at which jedi ends, or doesn't, is left out and said; others aren't."""
        bad = f": 1, the first at {self.folder}/bad.py\n"
        rows = {
            "end": (2, f"the server ended, or sent what is no message, twice{bad}"),
            "crash": (2, f"the server ended, or sent what is no message, twice{bad}"),
            "hang": (2, f"the server said nothing for 30 s, twice{bad}"),
            "memory": (2, f"the server took more than 300 MB of memory, twice{bad}"),
            "error": (0, "inferred: KeyError: 'worse': 1, the first at"),
            "deep": (0, "inferred: RecursionError"),
            "print": (0, ""),
            "none": (0, "to mind: jedi isn't installed (Debian's python3-jedi)"),
        }
        for fault, (restarts, text) in rows.items():
            with self.subTest(fault=fault):
                limits = {"memory": ["--megabytes", "300"], "hang": ["--patience", "30"]}
                name = "none" if fault == "none" else f"{fault} worse"
                status, said = self.with_fault(name, *limits.get(fault, []))
                self.assertEqual(status, 1, said)
                self.assertIn(text, f"{said}\n")
                self.assertEqual("started again" in said, restarts > 0, said)
                self.assertIn("a file of Python: what isn't Python: 1, the first at", said)
                self.assertIn("broken.py, line 1: invalid syntax\n", f"{said}\n")
                self.assertIn("a carriage return alone: 1, the first at", said)
                self.assert_answers(
                    {
                        ("definition", "last.py", 1, 0): ["good.py:0"],
                        ("definition", "bad.py", 3, 11): [] if restarts else ["bad.py:0"],
                    }
                )

    def test_signal(self) -> None:
        """What it started ends with it, and nothing of its files stays."""
        work, mark = (os.path.join(self.home, name) for name in ("work", "failed"))
        os.mkdir(work)
        own = {"PYTHONPATH": self.library, "FAULT": "hang worse", "FAILED": mark, "TMPDIR": work}
        words = [*command("index"), self.folder, self.out]
        with subprocess.Popen(
            words, env={**os.environ, **own}, stderr=subprocess.PIPE, text=True
        ) as run:
            wait_for(lambda: os.path.exists(mark) and os.path.getsize(mark) > 0)
            run.terminate()
            said = run.communicate(timeout=60)[1]
        self.assertEqual(run.returncode, 128 + signal.SIGTERM, said)
        with open(mark, encoding="ascii") as file:
            numbers = file.read().split()
        wait_for(lambda: not any(map(is_running, numbers)))
        self.assertEqual((os.listdir(work), os.path.exists(self.out)), ([], False))


if __name__ == "__main__":
    unittest.main()
