"""Tests of `index` on Python: where its rules alone lead, by rows that are marked as programs are, and by
programs that say themselves what their names have."""

import os
import json
import tempfile
import subprocess
import sys
import unittest
from sysconfig import get_path
from typing import Any

from codenav.index.python.answers import Answering
from codenav.index.python.modules import Modules
from codenav.index.python.serving import stubs
from codenav.texts.places import path_of
from tests.python_programs import RUN, At, Program, marked
from tests.randomly import check_cases

ROWS: dict[str, dict[str, str]] = {
    "functions see what's around, but no class": {
        "a.py": """
            «1:x» = 1
            def «2:f»(«3:x», *«4:args», «5:y»=«x:1», **«6:more»):
                def g():
                    nonlocal «x:3 7»
                    «7:x» = «y:5»
                    return «more:6», «args:4»
                global «z:8»
                «8:z» = «x:3 7»
            class C:
                «9:x» = «x:1»
                «10:z» = «z:8»
                def m(«11:self»): return «x:1», «z:8», «self:11», «missing:»
                y = [«x:1» for _ in «x:9»]
            def late(): return «f:2»(«y:5»=«w:12»)
            «12:w» = (n := «x:1»)
            del «x:1»
            «x:1» += 1
            """
    },
    "comprehensions, lambdas and what they bind": {
        "a.py": """
            «1:x» = 1
            [«x:2» for «2:x» in «x:1» if «x:2» for y in «x:2»]
            {«k:3»: «v:4» for «3:k», «4:v» in «x:1»}
            lambda «5:x», y=«x:1»: «x:5»
            def f():
                any((«6:last» := one) for one in «x:1»)
                return «last:6», (lambda: «last:6»)
            (lambda «7:x»: [«x:8» for «8:x» in «x:7»])
            """
    },
    "what is before a dot is what it is there": {
        "a.py": """
            class «1:C»:
                «2:x» = 1
            class D:
                y = «C:1».«x:2»
                class «3:C»:
                    «4:x» = 2
                z = «C:3».«x:4», «C:3»().«x:4»
            class «5:E»(«C:1»): pass
            «E:5».«x:2»
            """
    },
    "a name that is bound again is one": {
        "a.py": """
            «1:x» = 1
            «2:x» = «x:1 2 3»
            for «3:x» in (): pass
            try: pass
            except ValueError as «4:e»: «e:4 5»
            with open("x") as «5:e»: «e:4 5»
            def «6:f»(): pass
            def «7:f»(): «f:6 7»
            """
    },
    "f-strings": {
        "a.py": r"""
            «1:x» = «2:w» = 1
            f"{«x:1»!r:>{«w:2»}} {{x}} {«x:1»=} \N{DIGIT ONE} {«x:1»:%Y-%m}"
            rf"\{«x:1»} \N{«x:1»}" f'{«x:1»}' "{x}"
            f'''{
              «x:1» + f"{«x:1»}{'}'}" + {"a": «x:1»}["a"]
            } {[«y:3» for «3:y» in «x:1»]} {«x:1» != «w:2»} {(lambda «4:q»: «q:4»)}'''
            f"\{«x:1»}" f"{(«5:v» := «x:1»)}" f"{«v:5»}"
            print(f"one {«x:1»}"
                  f"two {«x:1»}")
            """
    },
    "patterns, whose alternatives bind the same": {
        "a.py": """
            class «1:A»: «2:x» = 1
            class «3:B»(«A:1»): pass
            match «A:1»():
                case «A:1»(«x:2»=«4:v») | «B:3»(«5:v»): «v:4 5»
                case [«6:a», *«7:b»] | (*«8:b», «9:a»): «a:6 9», «b:7 8»
                case {"k": «10:c», **«11:d»} if «c:10»: «d:11»
                case («A:1»() as «12:e») | «13:e»: «e:12 13»
                case _: pass
            match = case = 1
            """
    },
    "a class and its instances": {
        "a.py": """
            class «1:A»:
                «2:n» = 0
                __slots__ = ("n", "o")
                def __init__(«3:self», o):
                    «self:3».«4:o» = o
                    «self:3».«n:2 5» += 1
                    «self:3».«5:n» = 1
                    def inner(): «self:3».«6:p» = 1
                    o.«o:» = 1
                @classmethod
                def «7:make»(«8:cls»): return «cls:8».«n:2 5»
                @staticmethod
                def still(a): a.q = 1; return a.«q:»
                @property
                def «9:wide»(self): return self.«p:6», self.«__hidden:11»
                @«wide:9 10».setter
                def «10:wide»(self, v): del self.«p:6»; self.«11:__hidden» = v
            class B(«A:1»):
                def m(self, other):
                    self.«n:2 5» += super().«n:2 5» + self.«wide:9 10» + other.«n:»
                    return self.«__hidden:», super().«make:7»(), «A:1»().«o:4», B.«make:7»
                def again(self):
                    self = other = 1
                    self.«n:» = 1
            «A:1».«n:2 5» = «A:1».«new:» = 2
            """
    },
    "values that are known": {
        "a.py": """
            import enum
            import typing
            from typing import Optional
            class «1:A»:
                «2:x»: "«A:1»"
                def «3:m»(self) -> "«A:1»": return self
                def n(self): return self
                @property
                def «4:p»(self) -> Optional[«A:1»]: self().«m:»
                @classmethod
                def make(«5:cls»): return «cls:5»().«m:3»
                def __init__(self): self.q, self.r = A(), 1; self.s = A(); self.t = None
                def set(self): self.t = A(); self.t.«m:3», self.s.«m:3», self.q.«m:»
            A().«m:3»().«x:2».«p:4».«m:3», A.m().«m:3», A().n().«m:»
            def f(b: A, c: "typing.Union[A, None]", d: unknown, *e: A, g: "A | B" = None):
                b.«m:3», c.«m:3», d.«m:», e.«m:», g.«m:», b.n.«m:»
                for h in e: h.«m:»
                a = A()
                a = A() if b else 1
                a.«m:», (b2 := A()).«m:», b2.«m:»
                with A() as i: i.«m:»
                def j(k=A()): k.«m:»
            class Kind(enum.Enum):
                «6:ONE» = A()
                def «7:own»(self): return self.«ONE:6»
            Kind.«ONE:6».«own:7», Kind.ONE.«m:»
            class Got:
                def __get__(self, *_): return A()
                def «8:go»(self): return 1
            class Has:
                got = Got()
            Has().got.«go:», Got().«go:8»
            class Made:
                def __new__(cls): return A()
                def go(self): return 1
            Made().«go:»
            """
    },
    "the order of bases": {
        "a.py": """
            class A:
                def «1:m»(self): pass
            class B(A): pass
            class C(A):
                def «2:m»(self): pass
            class D(B, C): pass
            D.«m:2»
            class E(A, unknown()): pass
            class F(unknown(), A): pass
            E.«m:1», F.«m:»
            class G(F):
                def «3:m»(self): pass
            G.«m:3»
            class H(H): «4:x» = 1
            H.«x:4», H.«y:»
            """
    },
    "parameters by their names": {
        "a.py": """
            import functools, dataclasses, typing
            def f(a, /, «1:b», *, «2:c», **d): pass
            f(«b:1»=1, «c:2»=2, «a:»=3, «d:»=4, «e:»=5)
            class A:
                def __init__(self, «3:x»): pass
                @functools.lru_cache()
                def m(self, «4:y»): self.m(«y:4»=1)
            class B(A): pass
            B(«x:3»=1).m(«y:4»=2)
            @dataclasses.dataclass
            class D:
                «5:x»: int
                «6:y»: int = 1
            @dataclasses.dataclass
            class E(D): «7:z»: int = 1
            E(«x:5»=1, «y:6»=2, «z:7»=3)
            class N(typing.NamedTuple): «8:x»: int
            N(«x:8»=1)
            @unknown
            def g(a): pass
            g(«a:»=1)
            class M(A, metaclass=type): pass
            """
    },
    "overloads are declarations": {
        "a.py": """
            from typing import overload
            @overload
            def f(a: int) -> int: ...
            @overload
            def f(a: str) -> str: ...
            def «1:f»(a): return a
            «f:1»(1)
            x: int
            «2:x» = 1
            «x:2»
            «3:y»: int
            «y:3»
            """
    },
    "annotations, in quotes too": {
        "a.py": """
            import typing as t
            from typing import Literal, Annotated
            class «1:A»: «2:i»: "«B:3»"
            class «3:B»: pass
            def f(a: "list[«A:1»]", b: t.Optional["«A:1».«i:2»"], c: Literal["A"]) -> "«B:3»":
                local: Annotated["«B:3»", "A"] = 1
            x: 'A' " | None"
            """
    },
    "imports": {
        "p/__init__.py": """
            from .«a:p/a.py» import «f:1» as «f:1», «g:2»
            from . import «b:p/b.py»
            «3:m» = 1
            from .«n:p/n.py» import «n:6»
            """,
        "p/a.py": """
            def «1:f»(): pass
            def «2:g»(): pass
            from . import «c:p/c.py», «f:1»
            from .. import «12:top»
            «top:12»
            from ..p.«n:p/n.py» import «other:7» as «else_:7»
            """,
        "p/b.py": "«4:x» = 1",
        "p/c.py": "from . import *\n«f:1», «b:p/b.py», «_under:»",
        "p/m.py": "«5:x» = 1",
        "p/n.py": "«6:n» = 1\n«7:other» = 2",
        "use.py": """
            import «p:p/__init__.py»
            import «p:p/__init__.py».«b:p/b.py»
            import «p:p/__init__.py».«m:p/m.py» as «m:p/m.py», p.b as «pb:p/b.py»
            import p.n as «n:6»
            from p import «f:1», «g:2» as «h:2», «n:6», «m:3»
            import «8:gone», gone.more as «9:more»
            from gone import «11:this», «that:» as «10:those»
            «this:11»
            «p:p/__init__.py».«f:1», p.«b:p/b.py».«x:4», «h:2», «n:6», p.«nothing:»
            «gone:8».x, «those:10», «more:9»
            """,
    },
    "imports of all": {
        "one.py": """
            __all__ = ["«a»", "_b"] + ["c"]
            __all__ += other.__all__
            __all__.append("d")
            import other
            «1:a» = «2:_b» = «3:c» = «4:d» = e = 1
            """.replace(
            "«a»", "a"
        ),
        "other.py": "__all__ = ('f',)\nf = g = 1",
        "none.py": "__all__ = []\nh = 1",
        "public.py": "«5:i» = _j = 1\nfrom circle import *",
        "circle.py": "from public import *\n«6:k» = 1\nlast: int",
        "use.py": """
            from one import *
            from none import *
            from public import *
            from unknown import *
            «a:1», «_b:2», «c:3», «d:4», «e:», «f:», «g:», «h:», «i:5», «_j:», «k:6»
            def f(x: «k:6») -> «a:1»: «i:5»; «f:9»
            """.replace(
            "def f(", "def «9:f»("
        ).replace(
            " «f:», ", " «f:9», "
        ),
        "lasts.py": """
            from circle import *
            «7:k» = 1
            «k:7 6»
            «8:len» = 1
            """,
    },
    "imports on conditions": {
        "a.py": """
            from typing import TYPE_CHECKING
            try:
                from fast import «1:f»
            except ImportError:
                from slow import «f:2»
            try:
                import slow as «s:slow.py»
            except ImportError:
                «3:s» = None
            if TYPE_CHECKING:
                from slow import «T:4»
            def g(x: «T:4»): return «f:1 2», «s:3 slow.py»
            """,
        "slow.py": "def «2:f»(): pass\nclass «4:T»: pass",
    },
    "names as Python normalizes them": {
        "a.py": "«1:ﬁ» = 1\n«fi:1»\nclass A:\n    def m(self): self.«2:ﬁx» = self.«fix:2»\nµ = «3:μ» = 1\n",
    },
    "places in code units": {
        "a.py": "«1:ä» = '\U0001f600'; «2:b» = '\U0001f600' + f'\U0001f600{«ä:1»}' + «b:2»\n"
        "\f\nif 1:\n\t«ä:1»\n",
    },
}


class Rules(unittest.TestCase):
    """What is known without any library."""

    def setUp(self) -> None:
        self.folder = os.path.realpath(self.enterContext(tempfile.TemporaryDirectory()))

    def answered(self, files: dict[str, bytes]) -> dict[str, Any]:
        """What is answered of each file of a folder that has these alone."""
        folder = self.enterContext(tempfile.TemporaryDirectory(dir=self.folder))
        for name, body in files.items():
            path = os.path.join(folder, name)
            os.makedirs(os.path.dirname(path), exist_ok=True)
            with open(path, "wb") as out:
                out.write(body)
        own = stubs() or [get_path("stdlib")]
        answering = Answering(Modules(folder, [], own), None, lambda: None)
        return {name: answering.of(os.path.join(folder, name)) for name in files}

    @staticmethod
    def found(answers: dict[str, Any], with_declared: bool = False) -> dict[At, list[Any]]:
        """Where each word leads by what is answered of files."""
        found = dict[At, list[Any]]()
        for name, answer in answers.items():
            symbols = [[own["at"], *own.get("more", ())] for own in answer["symbols"]]
            for own, places in zip(answer["symbols"], symbols):
                places += own.get("declared", ()) if with_declared else []
            for line, start, _, numbers in answer["words"]:
                found[name, line, start] = [spot for one in numbers for spot in symbols[one]]
        return found

    def test_rows(self) -> None:
        rows = {title: marked(files) for title, files in ROWS.items()}
        answers = self.answered(
            {
                f"{title}/{name}": text.encode()
                for title, (texts, _, _) in rows.items()
                for name, text in texts.items()
            }
        )
        self.assertEqual([name for name in answers if "left" in answers[name]], [])
        found = self.found(answers)
        for title, (texts, places, wanted) in rows.items():
            names = {at: number for number, at in places.items()}
            for at, numbers in wanted.items():
                own = f"{title}/{at[0]}", at[1], at[2]
                with self.subTest(title=title, at=at, line=texts[at[0]].split("\n")[at[1]]):
                    self.assertIn(own, found)
                    led = [self.named(spot, names, [*texts]) for spot in found[own]]
                    self.assertEqual(sorted(led), sorted(numbers.split()))

    @staticmethod
    def named(spot: list[Any], names: dict[At, str], files: list[str]) -> str:
        """The number of a place in rows, or the file of a module."""
        path = path_of(spot[0], []) or ""
        name = next((name for name in files if path.endswith(f"/{name}")), path)
        is_module = spot[1:3] == spot[3:] or spot[1] != spot[3]
        return name if is_module else names.get((name, spot[1], spot[2]), f"{name}:{spot[1:]}")

    def test_programs(self) -> None:
        """What a name has when a program runs was bound at one of the places that it leads to."""
        check_cases(self, 40, lambda make: {"seed": make.integers(0, 2**32)}, self.check_program)

    def check_program(self, seed: int) -> None:
        """Runs a program, and compares each use."""
        program = Program(seed, "pack")
        texts, places, wanted = marked(program.files)
        with tempfile.TemporaryDirectory(dir=self.folder) as folder:
            for name, text in {**texts, "run.py": RUN}.items():
                path = os.path.join(folder, name)
                os.makedirs(os.path.dirname(path), exist_ok=True)
                with open(path, "w", encoding="utf-8") as out:
                    out.write(text)
            line = [sys.executable, "-B", os.path.join(folder, "run.py"), folder]
            run = subprocess.run(line, capture_output=True, text=True, check=True)
            answering = Answering(Modules(folder, [], []), None, lambda: None)
            answers = {name: answering.of(os.path.join(folder, name)) for name in texts}
        found = self.found(answers, True)
        lines = {(at[0], at[1]): at for at in sorted(places.values(), reverse=True)}
        seen: dict[str, list[Any]] = json.loads(run.stdout)
        for at, number in wanted.items():
            led = {
                (os.path.relpath(path_of(spot[0], []) or "", folder), spot[1], spot[2])
                for spot in found.get(at, [])
            }
            values: list[Any] = seen.get(number) or []
            for value in [own for own in values if own]:
                if isinstance(value, int):
                    own = places[str(value)]
                else:
                    own = lines[value[0], value[1]] if value[1] >= 0 else (value[0], 0, 0)
                self.assertIn(own, led, f"{at}: {texts[at[0]].splitlines()[at[1]]}")

    def test_texts(self) -> None:
        """Each text, as bytes: the words with their lines and columns, or why it's left out."""
        rows: dict[bytes, Any] = {
            b"\xef\xbb\xbfx = x\r\n\tx": "left",
            b"\xef\xbb\xbfx = 1\r\nif x:\r\n\tx\r\n": [(0, 0, 1), (1, 3, 4), (2, 1, 2)],
            "é = '€'; é\n".encode(): [(0, 0, 1), (0, 9, 10)],
            "# coding: latin-1\nx = 'é'; x\n".encode("latin-1"): [(1, 0, 1), (1, 9, 10)],
            "# coding: latin-1\nx = 'é'; x\n".encode(): [(1, 0, 1), (1, 9, 10)],
            "# coding: koi8-r\nx = 'я'; x\n".encode("koi8-r"): [(1, 0, 1), (1, 9, 10)],
            "# coding: euc-jp\nx = 'あ'; x\n".encode("euc-jp"): [(1, 0, 1), (1, 10, 11)],
            "x = '\U0001d7d8'; x; 𝐱𝐲 = 𝐱\n".encode(): [
                *((0, 0, 1), (0, 10, 11), (0, 13, 17), (0, 20, 22))
            ],
            b"x = 1\rx\n": "lines that end by a carriage return alone",
            b"x = 'a\\\r\n'; x\r\n": [(0, 0, 1), (1, 3, 4)],
            b"\x0cx = 1\n\x0c\x0bx": "left",
            b"\x0cx = 1\n\x0cx": [(0, 1, 2), (1, 1, 2)],
            b"x = \n": "what isn't Python, line 1: invalid syntax",
            b"print 1": "left",
            b"\xff": "left",
            b"# coding: none\n": "left",
            b"x = 1\0": "left",
            b"(" * 300 + b")" * 300: "left",
            b"": [],
        }
        for body, wanted in rows.items():
            answer = self.answered({"a.py": body})["a.py"]
            with self.subTest(body=body[:40]):
                if isinstance(wanted, str):
                    self.assertIn(wanted.removeprefix("left"), ", ".join(answer["left"]))
                else:
                    self.assertEqual([tuple(word[:3]) for word in answer["words"]], wanted)


if __name__ == "__main__":
    unittest.main()
