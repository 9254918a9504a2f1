"""Tests of `index` of TypeScript and JavaScript: over the compiler's checker where that is
installed, and over what stands in for it."""

import json
import os
import random
import shutil
import unittest
from typing import Any

from codenav.index.typescript.checker import lacks
from codenav.texts.places import uri_of
from tests.test_index import OnFolder, vertices

PACKAGE = {"name": "shapes", "version": "1.2.0", "main": "build/lib/index.js"}
MANIFEST = {
    "compilerOptions": {"outDir": "build", "rootDir": ".", "strict": True, "module": "commonjs"},
    "include": ["lib/**/*.ts"],
}
INDEX = """import { twice as double, Side } from './math';
import type * as all from './math';
export { double };
export interface Shape { side: Side; area(): number; }
export class Box implements Shape {
  side: Side = 1;
  area() { return double(this.side); }
}
export class Cube extends Box {
  area() { return super.area() * 3; }
}
export function make(side: Side): Shape & { made: true } {
  const shape: Shape = { side, area: () => side };
  const { area } = shape;
  return { side: 2, made: true, area };
}
export function over(a: number): number;
export function over(a: string): string;
export function over(a: any): any { return a; }
export const one = over(1) + over('1').length;
export const width = (shape: Box | Cube | { side: number }) => shape.side;
let local: all.Side = one;
export default function () { return local; }
"""
NODE_FILES = {
    "lib/index.ts": INDEX,
    "lib/math.ts": "export type Side = number;\nexport function twice(a: Side) { return a + a; }\n"
    "process.env.A; console.log(1);\n",
    "lib/globals.d.ts": "declare var process: { env: any };\n",
    "test/one.js": "const { twice } = require('../lib/math');\nprocess.env.X = twice(2);\n"
    "process = { env: 1 };\nconst lacking = require('lacking');\nlacking.x();\n"
    "Deno.args.all;\n",
    "test/before.js": "Deno.args.all = 1;\nvar own = {};\nown.one = {};\nown.one.all = 2;\n",
    "test/tool.cjs": "module.exports = { x() {} };\n",
    "test/two.mjs": "import tool from './tool.cjs';\ntool.x();\n",
}


def files_of(manifest: dict[str, Any], package: dict[str, Any], **more: str) -> dict[str, str]:
    """A package's files."""
    own = {"tsconfig.json": json.dumps(manifest), "package.json": json.dumps(package)}
    return {**own, **more}


@unittest.skipIf(lacks(), "node or node-typescript isn't installed")
class Checked(OnFolder):
    files = files_of(MANIFEST, PACKAGE, **NODE_FILES)

    def test_answers(self) -> None:
        status, said = self.index()
        self.assertEqual(status, 0, said)
        self.assertIn(
            "to mind: 1 modules aren't installed, and nothing is known of them: lacking", said
        )
        lib, one = "lib/index.ts", "test/one.js"
        self.assert_answers(
            {
                # through an import, a name given to it, and an export of that
                ("definition", lib, 0, 9): ["math.ts:1"],
                ("definition", lib, 0, 18): ["math.ts:1"],
                ("definition", lib, 2, 9): ["math.ts:1"],
                ("definition", lib, 6, 18): ["math.ts:1"],
                ("definition", lib, 0, 40): ["math.ts:0"],
                ("definition", lib, 21, 15): ["math.ts:0"],
                # a member by `this`, and of each type of a union
                ("definition", lib, 6, 30): ["index.ts:5"],
                ("definition", lib, 20, 69): ["index.ts:20", "index.ts:5"],
                # shorthand stands for two, a literal's member for the awaited type's alone
                ("definition", lib, 12, 25): ["index.ts:11", "index.ts:3"],
                ("definition", lib, 12, 31): ["index.ts:3"],
                ("definition", lib, 13, 10): ["index.ts:13", "index.ts:3"],
                ("definition", lib, 14, 11): ["index.ts:3"],
                # overloads are one symbol, whose definition has the body
                ("definition", lib, 19, 19): ["index.ts:18"],
                ("definition", lib, 19, 29): ["index.ts:18"],
                ("definition", lib, 16, 16): ["index.ts:18"],
                ("declaration", lib, 19, 19): ["index.ts:16", "index.ts:17"],
                ("references", lib, 18, 16): [*(["index.ts:16", "index.ts:17"]), "index.ts:18"]
                + ["index.ts:19"] * 2,
                # what implements, over any number of classes
                ("implementation", lib, 3, 17): ["index.ts:4", "index.ts:8"],
                ("implementation", lib, 3, 37): ["index.ts:6", "index.ts:9"],
                ("implementation", lib, 6, 2): ["index.ts:9"],
                ("definition", lib, 9, 24): ["index.ts:6"],
                # CommonJS, and what a test adds to a global isn't its declaration for the others
                ("definition", one, 0, 8): ["math.ts:1"],
                ("definition", one, 1, 16): ["math.ts:1"],
                ("definition", "lib/math.ts", 2, 0): ["globals.d.ts:0"],
                ("definition", one, 1, 0): ["globals.d.ts:0"],
                ("definition", one, 3, 26): [],
                # what is assigned in declares nothing that stands before it
                ("definition", one, 5, 0): [],
                ("definition", one, 5, 5): [],
                ("definition", "test/before.js", 0, 0): [],
                ("definition", "test/before.js", 0, 10): ["before.js:0"],
                ("definition", "test/before.js", 3, 0): ["before.js:1"],
                ("definition", "test/before.js", 3, 4): ["before.js:2"],
                ("definition", "test/before.js", 3, 8): ["before.js:3"],
                # a module's default import of what CommonJS exports
                ("definition", "test/two.mjs", 0, 7): ["tool.cjs:0"],
                ("definition", "test/two.mjs", 1, 5): ["tool.cjs:0"],
                ("hover", lib, 6, 18): {
                    "kind": "markdown",
                    "value": "```typescript\nfunction twice(a: Side): number\n```",
                },
            }
        )

    def test_monikers(self) -> None:
        """By the walk from the package's entries, which leads back from what is built."""
        self.index()
        found = {one["identifier"] for one in vertices(self.out, "moniker")}
        wanted = {
            *("double", "Shape", "Shape.side", "Shape.area", "Box", "Box.side", "Box.area", "Cube"),
            *("Cube.area", "make", "make().made", "over", "one", "width", "default"),
        }
        self.assertEqual(found, {f":{name}" for name in wanted})
        packages = {
            (p["manager"], p["name"], p["version"])
            for p in vertices(self.out, "packageInformation")
        }
        self.assertEqual(packages, {("npm", "shapes", "1.2.0")})


LIBRARY = {
    "package.json": json.dumps({"name": "@a/lib", "version": "2.0.0", "main": "./main.js"}),
    "main.js": "const inner = require('./inner');\nclass Tool { run() { return inner.two(); } }\n"
    "module.exports = { Tool, make() { return new Tool(); }, two: inner.two };\n"
    "module.exports.more = 1;\n",
    "inner.js": "exports.two = function () { return 2; };\n",
}


@unittest.skipIf(lacks(), "node or node-typescript isn't installed")
class Joined(OnFolder):
    """A library in CommonJS, and a program with a copy of it that's installed, as two projects."""

    files = {
        **{f"lib/{name}": text for name, text in LIBRARY.items()},
        **{f"user/node_modules/@a/lib/{name}": text for name, text in LIBRARY.items()},
        "user/package.json": json.dumps({"name": "user", "version": "1.0.0"}),
        "user/use.mjs": "import { Tool, make, more } from '@a/lib';\nmake().run(); new Tool(); more;\n",
    }

    def setUp(self) -> None:
        super().setUp()
        whole = self.folder
        rows: dict[str, list[str]] = {"lib": [], "app": ["--on-server", "@a/lib"]}
        for project, words in rows.items():
            self.folder = os.path.join(whole, "user" if project == "app" else project)
            status, said = self.index(*words)
            self.assertEqual(status, 0, said)
            self.upload(project)

    def test_both_ways(self) -> None:
        """A use leads to the library's project alone, and that knows the use."""
        self.assert_answer(
            {
                ("definition", "use.mjs", 1, 0): ["main.js:2"],
                ("definition", "use.mjs", 1, 7): ["main.js:1"],
                ("definition", "use.mjs", 1, 18): ["main.js:1", "main.js:2"],
                ("definition", "use.mjs", 1, 26): ["main.js:3"],
            }
        )
        documents = {one["uri"] for one in vertices(self.out, "document")}
        self.assertEqual(documents, {uri_of(os.path.join(self.folder, "use.mjs"), [])})
        self.folder = os.path.join(os.path.dirname(self.folder), "lib")
        uses = ["main.js:1", "main.js:2", "main.js:2", "use.mjs:0", "use.mjs:1"]
        self.assert_answer({("references", "main.js", 2, 19): uses}, "lib")

    def test_not_on_server(self) -> None:
        """A use of a package that isn't said to be on the server leads to the installed copy."""
        self.assertEqual(self.index()[0], 0)
        self.assert_answers({("definition", "use.mjs", 1, 7): ["main.js:1"]})
        paths = {
            one["uri"].rpartition("/node_modules/")[2] for one in vertices(self.out, "document")
        }
        self.assertIn("@a/lib/main.js", paths)


@unittest.skipIf(lacks(), "node or node-typescript isn't installed")
class SeveralManifests(OnFolder):
    """Packages in one checkout, one of whose manifests isn't whole, and a file that isn't either."""

    files = {
        "tsconfig.json": json.dumps(
            {"files": [], "references": [{"path": "one/tsconfig.lib.json"}]}
        ),
        "package.json": json.dumps({"name": "all", "version": "1.0.0", "private": True}),
        "one/tsconfig.lib.json": '{"extends": "none/tsconfig.json", /* said */ "compilerOptions": {"composite": true}}',
        "one/package.json": json.dumps({"name": "one", "version": "3.0.0", "types": "a.ts"}),
        "one/a.ts": "export const a = 1;\nexport let b: Glob;\n",
        "one/glob.d.ts": "interface Glob { x: number }\n",
        "two/tsconfig.json": json.dumps({"compilerOptions": {"jsx": "preserve"}}),
        "two/view.tsx": "import { a } from '../one/a';\nconst View = () => <View key={a} />;\n",
        "broken.ts": "let broken = ;\nbroken;\n",
        "lines.js": "/*\u2028*/ const s = 1; s;\r\nconst \U0001d4b3 = 1, t = s; t;\n",
    }

    def test_answers(self) -> None:
        status, said = self.index()
        self.assertEqual(status, 1, said)
        self.assertIn("one/tsconfig.lib.json: File 'none/tsconfig.json' not found.", said)
        self.assertRegex(
            said, "left out: answers of a file that has errors of syntax: 1, .*/broken.ts"
        )
        self.assert_answers(
            {
                ("definition", "two/view.tsx", 0, 9): ["a.ts:0"],
                ("definition", "two/view.tsx", 1, 20): ["view.tsx:1"],
                ("definition", "two/view.tsx", 1, 30): ["a.ts:0"],
                ("definition", "one/a.ts", 1, 14): ["glob.d.ts:0"],
                ("definition", "broken.ts", 1, 0): ["broken.ts:0"],
                ("definition", "lines.js", 0, 19): ["lines.js:0"],
                ("definition", "lines.js", 1, 18): ["lines.js:0"],
                ("definition", "lines.js", 1, 21): ["lines.js:1"],
            }
        )
        found = {one["identifier"] for one in vertices(self.out, "moniker")}
        self.assertEqual(found, {":", ":a", ":b", ":b.x"})


@unittest.skipIf(lacks(), "node or node-typescript isn't installed")
class ByChance(OnFolder):
    """Modules made by chance, whose maker knows where each name is defined and used."""

    files = {}

    def test_programs(self) -> None:
        for seed in range(3):
            chance = random.Random(seed)
            defined, uses = self.made(chance)
            self.assertEqual(self.index()[0], 0)
            rows: dict[tuple[str, str, int, int], Any] = {}
            for name, (file, line, column) in defined.items():
                places = [(file, line), *((used, at) for used, at, _ in uses[name])]
                rows["references", file, line, column] = sorted(f"{f}:{at}" for f, at in places)
                for used, at, start in uses[name]:
                    rows["definition", used, at, start] = [f"{file}:{line}"]
            with self.subTest(seed=seed):
                self.assert_answers(rows)

    def made(self, chance: random.Random) -> tuple[dict[str, Any], dict[str, list[Any]]]:
        """Writes modules; answers where each of their functions and members is defined, and where
        each is used, under whatever name."""
        defined = dict[str, Any]()
        uses: dict[str, list[Any]] = {f"f{number}": [] for number in range(8)}
        uses |= {f"m{number}": [] for number in range(8)}
        homes = {
            name: f"{chance.choice(('j{}.js', 't{}.ts'))}".format(chance.randrange(2))
            for name in uses
        }
        texts: dict[str, list[str]] = {home: [] for home in sorted(homes.values())}
        for file, lines in texts.items():
            names = {}
            for name in chance.sample(sorted(n for n in uses if n[0] == "f"), 4):
                if homes[name] == file:
                    continue
                names[name] = chance.choice([name, f"{name}_here"])
                text = "import { "
                uses[name].append((file, len(lines), len(text)))
                if names[name] != name:
                    uses[name].append((file, len(lines), len(text) + len(name) + 4))
                    text += f"{name} as "
                lines.append(f"{text}{names[name]} }} from './{homes[name][:2]}';")
            for name in sorted(n for n in uses if n[0] == "f" and homes[n] == file):
                defined[name] = file, len(lines), 16
                text = f"export function {name}() {{ return 0"
                for other, shown in names.items():
                    uses[other].append((file, len(lines), len(text) + 3))
                    text += f" + {shown}()"
                lines.append(text + "; }")
            for name in sorted(n for n in uses if n[0] == "m" and homes[n] == file):
                lines.append(f"class C{name} {{")
                defined[name] = file, len(lines), 2
                lines += [f"  {name} = 1;", "}"]
                uses[name].append((file, len(lines), len(f"new C{name}().")))
                lines.append(f"new C{name}().{name};")
        shutil.rmtree(self.folder, ignore_errors=True)
        os.mkdir(self.folder)
        for file, lines in texts.items():
            with open(os.path.join(self.folder, file), "w", encoding="utf-8") as out:
                out.write("\n".join([*lines, ""]))
        return defined, uses


class Recorded(OnFolder):
    """What the program printed, and how it may end."""

    files = {"a.ts": "let a = 1;\na;\n"}
    said = (
        {"symbol": 0, "places": [["A", 0, 4, 0, 5]], "name": None, "hover": "about a"},
        {"file": "A", "words": [[0, 4, 5, [0]], [1, 0, 1, [0]]], "over": []},
    )

    def printed(self, end: str, *words: str) -> tuple[int, str]:
        """A call over a node that prints what was recorded, and ends so."""
        path, library = os.path.join(self.home, "bin"), os.path.join(self.home, "lib")
        for folder in (path, library):
            os.makedirs(folder, exist_ok=True)
        file = os.path.join(self.folder, "a.ts")
        lines = [json.dumps(one).replace('"A"', json.dumps(file)) for one in self.said]
        for name, text in {
            "bin/node": "\n".join(["#!/bin/sh", "cat <<'END'", *lines, "END", end, ""]),
            "bin/tsc": "",
            "lib/typescript.js": "",
        }.items():
            with open(os.path.join(self.home, name), "w", encoding="utf-8") as out:
                out.write(text)
            os.chmod(os.path.join(self.home, name), 0o755)
        return self.index(*words, PATH=f"{path}:{os.environ['PATH']}")

    def test_whole(self) -> None:
        status, said = self.printed("")
        self.assertEqual(status, 0, said)
        self.assert_answers(
            {
                ("definition", "a.ts", 1, 0): ["a.ts:0"],
                ("references", "a.ts", 0, 4): ["a.ts:0", "a.ts:1"],
                ("hover", "a.ts", 1, 0): {"kind": "markdown", "value": "about a"},
            }
        )

    def test_not_whole(self) -> None:
        """What ends before it's done, or doesn't end, is one line, and OUT stays as it was."""
        self.printed("")
        whole = self.body()
        rows: dict[tuple[str, ...], str] = {
            ("echo no heap >&2; exit 134",): "ended with status 134: no heap",
            ("kill -9 $$",): "the compiler's checker ended with status",
            ("sleep 600", "--seconds", "0.5"): "the compiler's checker wasn't done within 0.5 s",
        }
        for words, text in rows.items():
            with self.subTest(words=words):
                status, said = self.printed(*words)
                self.assertEqual((status, self.body()), (2, whole), said)
                self.assertIn(text, said)


if __name__ == "__main__":
    unittest.main()
