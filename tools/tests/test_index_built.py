"""Tests of `index --state` where what says how files are built changes."""

import json
import os
import shutil
import unittest

from tests import test_index_again
from tests.test_index import FILES, OnFolder

DATABASE = json.dumps([{"directory": ".", "file": "sub/one.c", "command": "cc @told -c sub/one.c"}])


class Built(OnFolder):
    """Over a server that stands in, in a folder below another."""

    def is_asked(self, **variables: str) -> bool:
        """Whether the server is started."""
        mark = os.path.join(self.home, "mark")
        fault = {"FAULT": "end initialize * always", "FAILED": mark, **variables}
        status, said = self.stood_in("--state", os.path.join(self.home, "state"), **fault)
        is_marked = os.path.exists(mark)
        self.assertEqual(status, 2 if is_marked else 0, said)
        if is_marked:
            os.unlink(mark)
        return is_marked

    def write(self, name: str, text: str) -> str:
        """Writes a file by its path from the folder on; answers the whole one."""
        path = os.path.normpath(os.path.join(self.folder, name))
        os.makedirs(os.path.dirname(path), exist_ok=True)
        with open(path, "w", encoding="utf-8") as file:
            file.write(text)
        return path

    def check(
        self, suffix: str, first: dict[str, str], files: dict[str, str], variables: dict[str, str]
    ) -> None:
        """Has files of a language be asked again after each of other files came, and with variables."""
        own = {"XDG_CONFIG_HOME": f"{self.home}/config", "CARGO_HOME": f"{self.home}/cargo"}
        shutil.rmtree(self.folder)
        for name, text in FILES.items():
            self.write(f"sub/{os.path.splitext(name)[0]}{suffix}", text)
        for name, text in first.items():
            self.write(name, text)
        status, said = self.stood_in("--state", os.path.join(self.home, "state"), **own)
        self.assertEqual(status, 0, said)
        self.write("notes.txt", "none\n")
        self.assertFalse(self.is_asked(**own))
        for name, text in files.items():
            with self.subTest(name=name):
                path = self.write(name, text)
                self.assertTrue(self.is_asked(**own))
                os.unlink(path)
                if name in first:
                    self.write(name, first[name])
        for variable, text in variables.items():
            with self.subTest(variable=variable):
                self.assertTrue(self.is_asked(**{**own, variable: text}))
        self.assertFalse(self.is_asked(**own))

    def test_c(self) -> None:
        """With the commands' files of further words, and a database that a setting names."""
        first = {"compile_commands.json": DATABASE, "told": "@more\n"}
        first[".clangd"] = "CompileFlags:\n  CompilationDatabase: 'made/here'\n"
        files = {
            **dict.fromkeys(("../compile_commands.json", "../build/compile_commands.json"), "[]"),
            **dict.fromkeys(("sub/compile_flags.txt", "more", "told"), "-DX\n"),
            **dict.fromkeys(("sub/.clangd", "../.clangd"), "CompileFlags:\n  Add: [-DX]\n"),
            "../config/clangd/config.yaml": "",
            "made/here/compile_commands.json": "[]",
        }
        self.check(".c", first, files, {"CPATH": "/none", "CLANGD_FLAGS": "--pretty"})

    def test_minded(self) -> None:
        """That there's no database is said where there's none in the folder and above."""
        text, first = "to mind: no compile_commands.json", self.stood_in()[1]
        self.assertIn(text, first)
        for name in ("compile_commands.json", "../build/compile_commands.json"):
            with self.subTest(name=name):
                path = self.write(name, "[]")
                status, said = self.stood_in()
                self.assertEqual((status, text in said), (0, False), said)
                os.unlink(path)

    def test_go(self) -> None:
        files = ("go.sum", "sub/go.mod", "../go.work", "vendor/modules.txt")
        is_there = shutil.which("go")
        printed = {"GOOS": "plan9", "GOFLAGS": "-tags=one", "CGO_ENABLED": "0"} if is_there else {}
        variables = {"GOPACKAGESDRIVER": "off", **printed}
        self.check(".go", {}, dict.fromkeys(files, "\n"), variables)

    def test_rust(self) -> None:
        files = (
            *("../.cargo/config.toml", "sub/.cargo/config", "../cargo/config.toml"),
            *("Cargo.lock", "../Cargo.toml", "rust-toolchain", "../rust-toolchain.toml"),
        )
        variables = {"RUSTFLAGS": "--cfg one", "CARGO_BUILD_TARGET": "none"}
        self.check(".rs", {}, dict.fromkeys(files, "\n"), variables)


@unittest.skipUnless(shutil.which("clangd"), "clangd isn't installed")
class OfClangd(test_index_again.Again):
    """The answers are those of a whole run after each change."""

    files = {
        "sub/one.c": "#ifdef ONE\nint one(void) { return 1; }\n#else\nint one(void) { return 2; }\n"
        "#endif\nint two(void) { return one(); }\n",
    }

    def test_settings(self) -> None:
        there, text = "compile_commands.json", self.files["sub/one.c"]
        entry = {"directory": self.folder, "file": "sub/one.c"}
        told = json.dumps([{**entry, "arguments": ["cc", "-c", "@told", "sub/one.c"]}])
        plain = json.dumps([{**entry, "command": "cc -c sub/one.c"}])
        steps: list[tuple[int, dict[str, str]]] = [
            (3, {}),
            (1, {".clangd": "CompileFlags: {Add: [-DONE]}\n"}),
            (3, {".clangd": "CompileFlags: {Add: [-DTWO]}\n"}),
            (1, {"../.clangd": "CompileFlags: {Add: [-DONE]}\n"}),
            (3, {"../.clangd": ""}),
            (1, {there: told, "told": "-DONE\n"}),
            (3, {there: told, "told": "-DTWO\n"}),
            (1, {f"../{there}": plain.replace("-c", "-DONE -c")}),
            (3, {f"../{there}": plain}),
        ]
        for wanted, files in steps:
            with self.subTest(files=files):
                self.put({"sub/one.c": text, **files})
                self.again()
                self.assert_answers({("definition", "sub/one.c", 5, 24): [f"one.c:{wanted}"]})


if __name__ == "__main__":
    unittest.main()
