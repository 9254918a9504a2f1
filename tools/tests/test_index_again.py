"""Tests of `index --state`: what changed is asked again, and the dump is that of a whole run, over a
server that stands in and over those that are installed."""

import os
import random
import re
import shutil
import unittest
from typing import Any, Callable
from unittest import mock

from codenav.index.again import declared
from codenav.index.answers import Name, Place
from codenav.index.asked import Asking, names_in, words_in
from codenav.index.kept import Kept, Known, read
from codenav.index.shifted import moved_names, moved_place
from codenav.index.surfaces import c_surface, go_surface
from codenav.index.typescript import checker
from tests.test_index import OnFolder

Tree = dict[str, str]
Edit = Callable[[random.Random, Tree], None]
FAULTS = re.compile("errors in a file hide|what isn't Python")


class Again(OnFolder):
    """A folder that is indexed again after each edit."""

    def setUp(self) -> None:
        super().setUp()
        self.state = os.path.join(self.home, "state")

    def call(self, *words: str) -> tuple[int, str]:
        """A call of `index`, where what is wrong with a file is no matter."""
        status, said = self.index(*words)
        lines = [line for line in said.split("\n") if not FAULTS.search(line)]
        is_whole = not any(line.startswith("left out") for line in lines)
        return (0 if status == 1 and is_whole else status), "\n".join(sorted(lines))

    def again(self) -> str:
        """What a call says that may keep answers; has its dump be that of one that doesn't."""
        status, said = self.call("--state", self.state)
        self.assertEqual(status, 0, said)
        kept = self.body()
        whole_status, whole = self.call()
        self.assertEqual((whole_status, self.body()), (0, kept), f"{said}\n{whole}")
        return said

    def documents_again(self) -> list[str]:
        """The files that a call asks again which keeps answers; has its dump be that of one that doesn't."""
        documents = Asking.documents
        with mock.patch.object(Asking, "documents", autospec=True, side_effect=documents) as asked:
            self.again()
        return [os.path.basename(uri) for uri in asked.mock_calls[0].args[1]]

    def put(self, tree: Tree) -> None:
        """Has the folder have these files."""
        shutil.rmtree(self.folder, ignore_errors=True)
        for name, text in tree.items():
            path = os.path.join(self.folder, name)
            os.makedirs(os.path.dirname(path), exist_ok=True)
            with open(path, "w", encoding="utf-8") as file:
                file.write(text)

    def first(self, _: random.Random) -> Tree:
        """The files that edits begin with."""
        return dict(self.files)

    def edit(self, edit: Edit, seeds: range, count: int) -> None:
        """Has edits by chance come to the same dumps as whole runs."""
        for seed in seeds:
            chance = random.Random(seed)
            tree = self.first(chance)
            if os.path.exists(self.state):
                os.unlink(self.state)
            for step in range(count):
                self.put(tree)
                with self.subTest(seed=seed, step=step):
                    self.again()
                edit(chance, tree)


class Declared(unittest.TestCase):
    """What a document declares otherwise than before."""

    def test_kinds(self) -> None:
        """What types have differs by any name but a function, a variable or a constant, and by the
        size of anything but a method."""
        for kind in range(1, 27):
            one = Name(("A",), "one_two", kind, (2, 9), "int")
            is_plain = kind in (12, 13, 14)
            for after, words, differs in (
                (one, set[str](), False),
                (one._replace(size=(3, 9)), {"one_two"}, not is_plain and kind != 6),
                (one._replace(detail="long"), {"one_two"}, not is_plain),
                (one._replace(name="two"), {"two"}, not is_plain),
                (None, set[str](), not is_plain),
            ):
                with self.subTest(kind, after=after):
                    at = Place("file:///a", 1, 2, 1, 9)
                    known = Known("", leads={at: [at]}, names={("file:///a", 1, 2): one})
                    kept = Kept(documents={"file:///a": known})
                    names = {("file:///a", 8, 2): after} if after else {}
                    self.assertEqual(declared(names, kept, ["file:///a"]), (words, differs))


class Listed(unittest.TestCase):
    """The words and the names that a server lists."""

    def test_tokens(self) -> None:
        """What is no name is no word: signs and literals have tokens with rust-analyzer."""
        types = ["attributeBracket", "attribute", "macro", "macroBang", "boolean", "lifetime"]
        data = [number for kind in range(len(types)) for number in (0, 2, 1, kind, 0)]
        words = [word.start for word in words_in("u", data, types, lambda _: False)]
        self.assertEqual(words, [4, 6, 12])

    def test_macros(self) -> None:
        """The use of a macro is none, but what it makes, as what is around the macro has it."""

        def node(name: str, kind: int, *children: Any) -> dict[str, Any]:
            ends = {"line": 1, "character": 2}
            whole = {"start": ends, "end": ends}
            shown = {"range": whole, "selectionRange": whole, "children": children}
            return {"name": name, "kind": kind, **shown}

        made = node("MADE", 15, node("MORE", 15, node("f", 12)), node("s", 23, node("m", 8)))
        for found, wanted in (
            ([made], [((), "f"), ((), "s"), (("s",), "m")]),
            ([node("f", 12), made], [((), "f"), ((), "f#2"), ((), "s"), (("s",), "m")]),
            ([node("s", 23, made)], [((), "s"), (("s",), "f"), (("s",), "s"), (("s", "s"), "m")]),
            ([node("empty", 15)], [((), "empty")]),
        ):
            names = [(name.around, name.name) for _, name in names_in("u", found, str)]
            self.assertEqual(names, wanted)


class Surfaces(unittest.TestCase):
    def test_go(self) -> None:
        """Texts that differ in bodies alone have one surface, and no others have."""
        one = "package a\n\n// F is.\nfunc F(x int) (y interface{ M() }) { return 1 }\n\ntype T struct{ a int }\n"
        rows = {
            ("return 1", "return 2"): True,
            ("return 1", "\n\treturn '{' + \"}\" + `}\n}` /* } */ // }\n"): True,
            ("return 1", "switch x.(type) {}"): True,
            ("return 1", "type t struct{ T }"): False,
            ("return 1 }", ""): False,
            ("return 1", "return '"): False,
            ("return 1", "return `"): False,
            ("{ return 1 }", ""): False,
            ("F is", "F was"): False,
            ("M()", "N()"): False,
            ("(y", "(z"): False,
            ("a int", "b int"): False,
            ("func F(x int)", "var F = func(x int)"): False,
            ("package a", "package a\n"): False,
        }
        for (old, new), wanted in rows.items():
            with self.subTest(old=old, new=new):
                self.assertIn(old, one)
                is_same = go_surface(one) == go_surface(one.replace(old, new))
                self.assertEqual(is_same, wanted)
        for start in ("var s = `\nfunc x() {\n`\n", "var f = func() int { return %d }\n"):
            texts = {go_surface(one + start.replace("%d", n) + f"type U{n} int\n") for n in "12"}
            self.assertEqual(len(texts), 2)

    def test_c(self) -> None:
        """The same of C; bodies with what may be for other files are kept."""
        one = '#include "a.h"\n\n// F is.\nint f(int x) { return 1; }\n\nstruct t { int a; };\n'
        rows = {
            ("return 1", "return 2"): True,
            ("return 1", "return '{' + g(\"}\") /* } */; // }\n"): True,
            ("return 1", "if (x) g(1); else g(2); for (;;) { return g(3); }"): True,
            ("return 1", "\n#define X\n return 1"): False,
            ("return 1", "extern int v"): False,
            ("return 1", "int *g(int); return g(1)"): False,
            ("return 1", "; unsigned int g(int, char *)"): False,
            ("return 1; }", ""): False,
            ("return 1", "return '"): False,
            ("{ return 1; }", ";"): False,
            ("{ return 1; }", "BEGIN return 1; }"): False,
            ("int f", "static int f"): False,
            ("F is", "F was"): False,
            ("int x", "int y"): False,
            ("int a", "int b"): False,
            ("struct t", "int u; struct t"): False,
            ("a.h", "b.h"): False,
        }
        for (old, new), wanted in rows.items():
            with self.subTest(old=old, new=new):
                self.assertIn(old, one)
                is_same = c_surface(one) == c_surface(one.replace(old, new))
                self.assertEqual(is_same, wanted)

    def test_moved(self) -> None:
        """A place is known to be where its name is now, or above all that may have moved."""

        def name(text: str, lines: int) -> Name:
            return Name((), text, 12, (lines, 1))

        def place(line: int, end_line: int) -> Place:
            return Place("u", line, 5, end_line, 6)

        before = {("u", 2, 5): name("f", 0), ("u", 4, 5): name("g", 0)}
        after = {("u", 2, 5): name("f", 2), ("u", 6, 5): name("g", 0)}
        moved = moved_names(before, after)
        assert moved is not None
        rows = {(1, 1): 1, (2, 2): 2, (3, 3): None, (4, 4): 6, (4, 5): None, (9, 9): None}
        for (line, end_line), wanted in rows.items():
            found = moved_place(place(line, end_line), moved)
            self.assertEqual(found, None if wanted is None else place(wanted, wanted))
        whole = Place("u", 0, 0, 7, 1)
        self.assertEqual(moved_place(whole, moved), whole)
        self.assertIsNone(moved_names(before, {("u", 2, 5): name("f", 0)}))
        self.assertIsNone(moved_names(before, {**after, ("u", 6, 5): name("h", 0)}))


class StoodIn(Again):
    def call(self, *words: str) -> tuple[int, str]:
        return self.stood_in(*words)

    def test_no_change(self) -> None:
        """Nothing is asked, and the server isn't started."""
        self.again()
        mark = os.path.join(self.home, "mark")
        status, said = self.stood_in(
            "--state", self.state, FAULT="end initialize * always", FAILED=mark
        )
        self.assertEqual((status, os.path.exists(mark)), (0, False), said)

    def test_faults(self) -> None:
        """What wasn't answered is asked the next time, and nothing else."""
        rows: dict[str, tuple[list[str], int]] = {
            "definition": ([], 1),
            "hover": ([], 0),
            "documentSymbol": (["api.h", "one.c", "two.c"], 12),
            "semanticTokens/full": (["api.h"], 2),
            "documentLink": (["api.h"], 2),
        }
        for method, (files, words) in rows.items():
            with self.subTest(method=method):
                mark = os.path.join(self.home, method.replace("/", " "))
                fault = {"FAULT": f"error {method} * once", "FAILED": mark}
                status, said = self.stood_in("--state", self.state, **fault)
                self.assertEqual(status, 1, said)
                with mock.patch.object(
                    Asking, "ask", autospec=True, side_effect=Asking.ask
                ) as asked:
                    self.assertEqual(self.documents_again(), files)
                many = [
                    len(call.args[3]) for call in asked.mock_calls if call.args[2] == "definition"
                ]
                self.assertEqual(sum(many[: -len(many) // 2]), words)
                os.unlink(self.state)

    def test_other_state(self) -> None:
        """Another server or other manifests, and another form, have it all asked; what is no such file
        is one line."""
        self.again()
        with open(self.state, encoding="utf-8") as file:
            lines = file.readlines()
        rows = {
            "": 0,
            '["form","codenav index 0, 0"]\n': 0,
            "no JSON\n": 2,
            "{}\n": 2,
            "5\n": 2,
            "[" * 100000: 2,
            '["lines"]\n': 2,
            "".join([*lines[:-1], "[]\n"]): 2,
        }
        for text, wanted in rows.items():
            with self.subTest(text=text[:30]):
                with open(self.state, "w", encoding="utf-8") as file:
                    file.write(text)
                status, said = self.stood_in("--state", self.state)
                self.assertEqual(status, wanted, said)
                self.assertEqual(said.count("\n") == 0, wanted == 2, said)
                if wanted == 2:
                    self.assertEqual(said, f"{self.state}: it's no file of what is kept")
        for first, is_known in (lines[0], True), ('["form","codenav index 0, 0"]\n', False):
            with open(self.state, "w", encoding="utf-8") as file:
                file.writelines([first, *lines[1:]])
            self.assertEqual(read(self.state) != {}, is_known)
        os.unlink(self.state)
        self.again()
        with open(os.path.join(self.folder, "compile_flags.txt"), "w", encoding="utf-8") as file:
            file.write("-DX")
        self.again()

    def test_edits(self) -> None:
        def edit(chance: random.Random, tree: Tree) -> None:
            name = f"{chance.choice('abcdef')}.{chance.choice('ch')}"
            if chance.random() < 0.2 and len(tree) > 2:
                del tree[chance.choice(sorted(tree))]
                return
            words = ["open", "both", "both_made", "other", "missing"]
            lines = []
            for _ in range(chance.randrange(1, 4)):
                one, two = chance.choice(words), chance.choice(words)
                lines.append(
                    f"int {one}();" if chance.random() < 0.4 else f"int {one}() {{ {two} }}"
                )
            tree[chance.choice([name, *tree])] = "\n".join([*lines, ""])

        self.edit(edit, range(3), 5)


HEADER = "int f0(int);\nint f1(int);\nint f2(int);\n#define LIMIT 7\nstruct box { int side; };\n"


LINES = (
    ("int shown;", "extern int shown;", "static int shown;"),
    ("int f4(int a) { return a + shown; }", "int f4(int a);", "static int f4(int a) { return a; }"),
    ("MADE(f3) { return a; }", "MADE(f3);", "MADE(f2) { return a; }"),
    (
        "int f3(int a) { int f4(int); return f4(a); }",
        "int f3(int a) { extern int shown; return shown; }",
    ),
    ("int f2(int a) {\n#define LIMIT 3\n  return LIMIT;\n}", "int f2(int a) {\n  return a;\n}"),
)
"""Lines that files of C may have, each in ways of which one may come in another's place."""


def edit_lines(chance: random.Random, text: str) -> str:
    """A text of C with another of such lines, or with another body."""
    every = [line for lines in LINES for line in lines if line in text]
    if every and chance.random() < 0.6:
        old = chance.choice(every)
        return text.replace(old, chance.choice(next(lines for lines in LINES if old in lines)))
    if chance.random() < 0.6:
        name = f"f{chance.randrange(5)}"
        return re.sub(r"\{\s*return \w+\(a\)", f"{{\n  return {name}(a)", text)
    made = "#define MADE(x) int x(int a)\n"
    return f"{text}{'' if made in text else made}{chance.choice(chance.choice(LINES))}\n"


def edit_c(chance: random.Random, tree: Tree) -> None:
    """Has a program of C differ a little."""
    names = [f"f{number}" for number in range(5)]
    one, two = chance.choice(names), chance.choice(names)
    file = chance.choice(["a.c", "b.c", "c.c", "d.c"])
    kind = chance.randrange(11)
    if kind > 6:
        file = chance.choice([name for name in sorted(tree) if name.endswith(".c")])
        tree[file] = edit_lines(chance, tree[file])
    elif kind == 0:
        tree["all.h"] = "\n".join(f"int {name}(int);" for name in names) + (
            f"\n#define LIMIT {one}(2)\nstruct box {{ int {chance.choice(['side', 'other'])}; }};\n"
        )
    elif kind == 1:
        tree["more.h"] = chance.choice(
            ["int f4(int);\n", "typedef struct box own;\n", "#define f3 f4\n"]
        )
    elif kind == 2 and file in tree and len(tree) > 2:
        del tree[file]
    else:
        include = chance.choice(["all.h", "more.h", "none.h"])
        tree[file] = (
            f'#include "all.h"\n#include "{include}"\n'
            + "// moved\n" * chance.randrange(2)
            + f"int {one}(int a) {{ return {two}(a) + LIMIT; }}\n"
            + f"#if {chance.randrange(2)}\nint g_{file[0]}(struct box *b) {{ return b->side + {one}(1); }}\n#endif\n"
        )


@unittest.skipUnless(shutil.which("clangd"), "clangd isn't installed")
class OfC(Again):
    files = {
        "all.h": HEADER,
        "a.c": '#include "all.h"\nint f0(int a) { return f1(a) + LIMIT; }\n',
        "b.c": '#include "all.h"\nint f1(int a) { struct box b = {a}; return f0(b.side); }\n',
    }

    def test_edits(self) -> None:
        self.edit(edit_c, range(3), 8)

    def test_bodies(self) -> None:
        """A body that changed has no other file asked again, which leads to where names are now."""
        self.again()
        text = self.files["a.c"] + "int f2(int a) { return f0(a); }\n"
        self.put({**self.files, "a.c": text})
        self.again()
        self.put({**self.files, "a.c": text.replace("{ return f1(a)", "{\n  a++;\n  return f1(a)")})
        self.assertEqual(self.documents_again(), ["a.c"])
        self.assert_answers({("definition", "all.h", 2, 4): ["a.c:4"]})

    def test_files_that_are_read(self) -> None:
        """A file that is read and is none of the folder's documents, or wasn't there, or is named by a
        word of the command or in a way that few write, counts as any other."""
        inst = os.path.join(self.home, "inst")
        os.mkdir(inst)
        use = "int one(void);\nint two(void);\nint f(void) {\n#ifdef FOO\n  return one();\n#else\n"
        use += "  return two();\n#endif\n}\n"
        rows = {
            "config.inc": '#include "config.inc"\n',
            ".gen/config.h": '#include ".gen/config.h"\n',
            "../inst/foo.h": "#include <foo.h>\n",
            "odd.h": '#include \\\n"odd.h"\n',
            "odder.h": '# /* x */ include /* y */ "odder.h"\n',
            "oddest.h": '%:include "oddest.h"\n',
            "forced.h": "",
            "asked.h": '#if __has_include("asked.h")\n#define FOO 3\n#endif\n',
        }
        for name, text in rows.items():
            flags = f"-I{inst}\n" + ("-include\nforced.h\n" if name == "forced.h" else "")
            tree = {"compile_flags.txt": flags, "a.c": text + use}
            for given in ("/* none */\n", "#define FOO 1\n", None, "#define FOO 2\n"):
                tree.pop(name, None)
                self.put(tree | ({name: given} if given else {}))
                with self.subTest(name=name, given=given):
                    self.again()
            shutil.rmtree(inst)
            os.mkdir(inst)

    def test_hovers(self) -> None:
        """What is said of a name that several files declare is what they say now."""
        for one in ("int f(int x);", "extern int f;", "struct f;"):
            use = "int k(void) { return f(1); }\n" if "(" in one else ""
            tree = {"k.h": f"/** one */\n{one}\n", "d.c": f"{one}\n{use}"}
            for text in ("/** one */", "/** two */", "", "/** one */"):
                tree["k.h"] = f"{text}\n{one}\n"
                self.put(tree)
                with self.subTest(one=one, text=text):
                    self.again()

    def test_one_file_for_both(self) -> None:
        status, said = self.call("--state", self.out)
        self.assertEqual((status, os.path.exists(self.out)), (2, False), said)
        self.assertIn("it's named for the dump and for --state", said)


BODIES = (
    "{ return 1 }",
    "{\n\tx := 1\n\treturn x\n}",
    "{\n\ttype own struct{ A }\n\treturn own{}.Side\n}",
    "{\n\tvar x interface{} = `}\n}`\n\tswitch x.(type) {\n\t}\n\treturn '{' // {\n}",
    "{ return none }",
)
"""Bodies of a function of Go: two of them with types of their own, and one that isn't right."""


def edit_go(chance: random.Random, tree: Tree) -> None:
    """Has a program of Go differ a little: what it's made of in a package that others use over a
    third, and which files a package has."""
    kind, made = chance.randrange(9), chance.choice(["A", "B"])
    text = tree["a/a.go"]
    if kind == 0:
        tree["b/b.go"] = OfGo.files["b/b.go"].replace("a.A", f"a.{made}")
    elif kind == 1:
        name = chance.choice(["Run", "Stop"])
        tree["a/more.go"] = OfGo.files["a/more.go"].replace("Run", name)
    elif kind == 2:
        tree["a/a.go"] = text.replace(*chance.choice([("Side", "Other"), ("Other", "Side")]))
    elif kind == 3:
        name = chance.choice(["len", "two"])
        tree["d/len.go"] = f"package d\n\nfunc {name}(s string) int {{ return 2 }}\n"
    elif kind == 4:
        tree.pop("d/len.go", None)
    elif kind == 5:
        package = chance.choice(["a", "other"])
        tree["a/more.go"] = re.sub("^package .*", f"package {package}", tree["a/more.go"])
    elif kind == 6:
        name = chance.choice(["a/extra.go", "b/extra.go", "n/n.go", "n/n.go", "d/use.go"])
        if tree.pop(name, None) is None:
            uses = '\nimport (\n\t_ "m/n"\n\t"m/a"\n)\n\nvar Use a.Runner\n'
            tree[name] = f"package {name[0]}\n{uses if name == 'd/use.go' else ''}"
    else:
        head, body = f"func (*{made}) Run() int ", chance.choice(BODIES)
        before, _, after = text.partition(head)
        tree["a/a.go"] = before + head + body + "\n\n" + after[after.index("\n\n") + 2 :]


@unittest.skipUnless(shutil.which("gopls") and shutil.which("go"), "gopls isn't installed")
class OfGo(Again):
    files = {
        "go.mod": "module m\n\ngo 1.19\n",
        "a/a.go": "package a\n\ntype Base struct{ Side int }\n\ntype A struct{ Base }\n\n"
        "func (*A) Run() int { return 1 }\n\ntype B struct{ Base }\n\nfunc (*B) Run() int { return 2 }\n\n"
        "type C struct{ B }\n",
        "a/more.go": "package a\n\ntype Runner interface {\n\tRun() int\n}\n",
        "b/b.go": 'package b\n\nimport "m/a"\n\nfunc Make() *a.A { return &a.A{} }\n',
        "c/c.go": 'package c\n\nimport "m/b"\n\nvar Made = b.Make()\n',
        "d/d.go": 'package d\n\nimport "m/c"\n\nvar D = c.Made.Run() + c.Made.Side + len("2")\n',
        "e/e.go": 'package e\n\nimport "m/a"\n\nvar E = (&a.B{}).Run() + a.C{}.Side\n',
    }

    def test_edits(self) -> None:
        self.edit(edit_go, range(2), 5)

    def test_packages(self) -> None:
        """An import leads to all files of its package, whichever came, and what implements an interface
        of a file is asked again where that was another package's."""
        tree = {**self.files, "u.go": 'package m\n\nimport "m/a"\n\nvar U a.A\n'}
        steps: list[tuple[str, str, list[str]]] = [
            ("a/extra.go", "package a\n", ["a.go:0", "extra.go:0", "more.go:0"]),
            ("a/more.go", tree["a/more.go"].replace("package a", "package other"), []),
            ("a/more.go", tree["a/more.go"], ["a.go:0", "extra.go:0", "more.go:0"]),
        ]
        self.put(tree)
        self.again()
        for name, text, wanted in steps:
            tree[name] = text
            self.put(tree)
            with self.subTest(name=name, text=text):
                self.again()
                if wanted:
                    self.assert_answers({("definition", "u.go", 2, 10): wanted})

    def test_bodies(self) -> None:
        """A body that changed has no other file asked again, which leads to where names are now."""
        self.again()
        body = "{\n\tx := 1\n\treturn x\n}"
        self.put({**self.files, "a/a.go": self.files["a/a.go"].replace("{ return 1 }", body)})
        self.assertEqual(self.documents_again(), ["a.go"])
        self.assert_answers(
            {
                ("definition", "e/e.go", 4, 12): ["a.go:11"],
                ("definition", "e/e.go", 4, 17): ["a.go:13"],
                ("definition", "e/e.go", 4, 27): ["a.go:15"],
            }
        )

    def test_later(self) -> None:
        """What a file with errors didn't find is found once it's there: in another module, and a file that
        git ignores."""
        mod = "module m\n\ngo 1.19\n\nrequire e.x/l v0.0.0\n\nreplace e.x/l => ../l\n"
        use = 'package m\n\nimport "e.x/l"\n\nvar V = l.One() + l.Two()\n'
        beside = os.path.join(self.home, "l")
        self.put({"go.mod": mod, "m.go": use, "n/n.go": "package n\n\nvar N = Made()\n"})
        files = {
            "go.mod": "module e.x/l\n\ngo 1.19\n",
            "one.go": "package l\n\nfunc One() int { return 1 }\n",
            "two.go": "package l\n\nfunc Two() int { return 2 }\n",
            "../code/n/made.go": "package n\n\nfunc Made() int { return 1 }\n",
        }
        self.call("--state", self.state)
        os.mkdir(beside)
        for name, text in files.items():
            with open(os.path.join(beside, name), "w", encoding="utf-8") as file:
                file.write(text)
            if name != "go.mod":
                with self.subTest(name=name):
                    self.again()

    def test_over_files(self) -> None:
        """A file that leads to what changed over two others is asked again: it leads elsewhere then."""
        tree = dict(self.files)
        self.put(tree)
        self.again()
        self.assert_answers({("definition", "d/d.go", 4, 15): ["a.go:6"]})
        tree["b/b.go"] = tree["b/b.go"].replace("a.A", "a.B")
        self.put(tree)
        self.again()
        self.assert_answers({("definition", "d/d.go", 4, 15): ["a.go:10"]})


@unittest.skipIf(checker.lacks(), "node or node-typescript isn't installed")
class OfTypeScript(Again):
    files = {
        "tsconfig.json": '{"include": ["src/**/*.ts"]}',
        "package.json": '{"name": "app", "version": "1.0.0", "main": "src/main.ts"}',
        "src/main.ts": "import { run } from './made';\nimport { lib } from 'lib';\nrun(); lib.x;\n",
        "src/made.ts": "export function run() { return 1; }\n",
    }
    changes = {
        "src/made.ts": "\nexport function run() { return 1; }\n",
        "src/more.ts": "export const more = 1;\n",
        "node_modules/lib/index.d.ts": "export declare const lib: { x: number };\n",
        "node_modules/lib/package.json": '{"name": "lib", "version": "2.0.0", "types": "other.d.ts"}',
        "node_modules/lib/other.d.ts": "export declare const lib: { y: number; x: string };\n",
        "package.json": '{"name": "app", "version": "2.0.0", "main": "src/more.ts"}',
        "tsconfig.json": '{"include": ["src/made.ts"], "compilerOptions": {"strict": true}}',
        "src/made.d.ts": "export function run(): string;\n",
    }

    def test_no_change(self) -> None:
        """Nothing is asked, whatever else comes into the folder."""
        self.again()
        self.put({**self.files, "notes.txt": "none"})
        with mock.patch.object(checker, "printed", side_effect=AssertionError):
            self.assertEqual(self.call("--state", self.state)[0], 0)

    def test_changes(self) -> None:
        """What the compiler reads or looks for has it asked again where it comes, goes or differs."""
        tree = dict(self.files)
        self.again()
        for name, text in self.changes.items():
            with self.subTest(name=name):
                tree[name] = text
                self.put(tree)
                self.again()
        self.put(self.files)
        self.again()


if __name__ == "__main__":
    unittest.main()
