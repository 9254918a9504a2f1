"""Tests of the package's files: what's laid out, units, completions, scripts of shells, a service
of runit, and that OPERATE.md names what's there."""

import gzip
import os
import re
import runpy
import shlex
import shutil
import subprocess
import sys
import tempfile
import time
import unittest
from configparser import RawConfigParser

from codenav.cli.main import OWN, TOOLS
from codenav.client.http import request
from codenav.program import PACKAGED, Program, free_port
from tests.servers import NOT_BUILT, TOP, built_program, command

PACKAGING = os.path.join(TOP, "packaging")
UNITS = ("service", "codenav-backup.service", "codenav-health.service", "codenav-browse.service")
ALERT = "codenav-alert@.service"
MOST_EXPOSED = 1.5
SCRIPTS = {
    "bash": ["build-deb", "build-tar", "try-booted", "try-in-chroot", "stand-in-systemctl"],
    "sh": [
        "../codenav",
        "codenav",
        "front/install",
        "runit/codenav/run",
        "runit/codenav/finish",
        "runit/codenav/log/run",
    ]
    + ["debian/codenav.postinst", "debian/codenav.prerm", "debian/codenav.postrm"],
}
SECONDS = 20


def text_of(*path: str) -> str:
    with open(os.path.join(TOP, *path), encoding="utf-8") as file:
        return file.read()


class Unit(RawConfigParser):
    """A unit of systemd; the names in it keep their case."""

    def optionxform(self, optionstr: str) -> str:
        return optionstr


class Files(unittest.TestCase):
    def test_scripts(self) -> None:
        """The shells find nothing wrong with their scripts."""
        for shell, names in SCRIPTS.items():
            for name in names if shutil.which(shell) else ():
                done = subprocess.run(
                    [shell, "-n", os.path.join(PACKAGING, name)], capture_output=True, check=False
                )
                self.assertEqual((done.returncode, done.stderr), (0, b""), name)

    def completed(self, shell: str) -> str:
        """What a shell completes by, in which it finds nothing wrong."""
        words = [sys.executable, "-B", os.path.join(PACKAGING, "completions"), shell]
        made = subprocess.run(words, stdout=subprocess.PIPE, text=True, check=True).stdout
        if shutil.which(shell):
            done = subprocess.run(
                [shell, "-n"], input=made, capture_output=True, text=True, check=False
            )
            self.assertEqual((done.returncode, done.stderr), (0, ""), shell)
        return made

    def test_completions(self) -> None:
        """Each word is completed, and its options."""
        for shell in ("bash", "zsh", "fish"):
            made = self.completed(shell)
            for word in [*OWN, *TOOLS]:
                self.assertRegex(made, rf"\b{word}\b")
            self.assertRegex(made, r"requests\b")

    def test_what_shells_complete(self) -> None:
        """What bash and fish answer for a line that isn't whole."""
        bash = (
            "COMP_WORDS=({words}); COMP_CWORD=$((${{#COMP_WORDS[@]}} - 1)); _codenav;"
            ' printf "%s\\n" "${{COMPREPLY[@]}}"'
        )
        for shell, form in ("bash", bash), ("fish", 'complete -C "{words}"'):
            if not shutil.which(shell):
                continue
            for words, found in (
                ("codenav sup", ["supervise"]),
                ("codenav mi", ["migrate"]),
                ("codenav supervise --req", ["--requests"]),
                ("codenav check-lsif --prof", ["--profile"]),
                ("codenav check-lsif --profile ", ["1", "2"]),
            ):
                line = words.replace("profile ", "profile ''") if shell == "bash" else words
                script = self.completed(shell) + "\n" + form.format(words=line)
                done = subprocess.run(
                    [shell], input=script, capture_output=True, text=True, check=False
                )
                said = [own.split("\t")[0] for own in done.stdout.splitlines()]
                self.assertEqual((said, done.stderr), (found, ""), (shell, words))

    def test_the_program_s_words(self) -> None:
        """The table of these is what the program says itself."""
        found = built_program()
        if found is None:
            self.skipTest(NOT_BUILT)
        table = runpy.run_path(os.path.join(PACKAGING, "completions"))["PROGRAM"]
        self.assertEqual(list(table), list(OWN))
        said = Program(found).called("--help").out
        self.assertEqual(set(re.findall(r"(?m)^  ([a-z-]+) +[A-Z]", said)), {*OWN, "help"})
        for word, taken in table.items():
            said = Program(found).called(word, "--help").out
            options = set(re.findall(r"(?m)^ +(?:-h, )?(--[a-z]+)", said)) - {"--help"}
            values = re.findall(r"(?m)^  <([A-Z]+)>", said)
            self.assertEqual({*options, *values}, set(taken), word)

    def test_the_sandbox(self) -> None:
        """systemd finds the server's unit exposed little."""
        if not shutil.which("systemd-analyze"):
            self.skipTest("systemd-analyze isn't there (Debian's systemd)")
        path = os.path.join(PACKAGING, "debian", "codenav.service")
        done = subprocess.run(
            ["systemd-analyze", "security", "--offline=true", path],
            capture_output=True,
            text=True,
            check=False,
        )
        level = re.search(r"exposure level for codenav.service: ([\d.]+)", done.stdout)
        assert level is not None, done.stdout + done.stderr
        self.assertLessEqual(float(level[1]), MOST_EXPOSED)

    def test_units(self) -> None:
        """What the units call is in the package."""
        for name in UNITS:
            unit = Unit(strict=False)
            unit.read(os.path.join(PACKAGING, "debian", f"codenav.{name}"))
            called = re.findall(r"/usr/bin/codenav ([a-z-]+)", unit["Service"]["ExecStart"])
            self.assertEqual([name for name in called if name in TOOLS], called, name)
            self.assertEqual(len(called), 1)
            self.assertEqual(unit["Unit"]["OnFailure"], ALERT.replace("@", "@%n"))

    def test_an_alert(self) -> None:
        """The line of the settings gets the state of the unit that failed, and its name."""
        unit = Unit(strict=False, interpolation=None)
        unit.read(os.path.join(PACKAGING, "debian", ALERT))
        self.assertIn(f"debian/{ALERT}", text_of("packaging", "debian", "rules"))
        words = shlex.split(unit["Service"]["ExecStart"])
        with tempfile.TemporaryDirectory() as folder:
            with open(f"{folder}/systemctl", "w", encoding="utf-8") as out:
                out.write('#!/bin/sh\necho "state of $*"\n')
            os.chmod(f"{folder}/systemctl", 0o755)
            own = {"PATH": f"{folder}:{os.environ['PATH']}", "CODENAV_UNIT": "a.service"}
            own[
                "CODENAV_ALERT"
            ] = f'echo "$CODENAV_UNIT failed" >"{folder}/said"; cat >>"{folder}/said"'
            subprocess.run(words, env={**os.environ, **own}, check=True)
            said = text_of(f"{folder}/said").splitlines()
        self.assertEqual(said[0], "a.service failed")
        self.assertRegex(said[1], "^state of status .* a.service$")

    def test_settings(self) -> None:
        """What the settings' file names the unit, runit's service and the page know."""
        unit = text_of("packaging", "debian", "codenav.service")
        run = text_of("packaging", "runit", "codenav", "run")
        names = re.findall(r"#(CODENAV_\w+)=", text_of("packaging", "debian", "codenav.default"))
        self.assertEqual(names[3:], ["CODENAV_ALERT"])
        self.assertIn(f'"{names[3]}=', text_of("packaging", "debian", ALERT))
        for name in names[:3]:
            self.assertIn(f"${{{name}}}", unit)
            self.assertIn(f"${{{name}:-", run)

    def test_ports(self) -> None:
        """The port that's asked is the server's own with HAProxy and without a front; with Lua the
        front has it, and the sides of the server the next two."""
        asked = int(
            re.findall(r"CODENAV_PORT=(\d+)", text_of("packaging/debian/codenav.default"))[0]
        )
        lua = text_of("packaging/front/lua/codenav.conf")
        self.assertIn(f"listen 127.0.0.1:{asked};", lua)
        servers = re.findall(r"(?m)^    server 127.0.0.1:(\d+)", lua)
        self.assertEqual(servers, [str(asked + 1), str(asked + 2)])
        self.assertIn(
            f"server one 127.0.0.1:{asked} ", text_of("packaging/front/haproxy/haproxy.cfg")
        )
        used = {
            text_of("packaging/container/Containerfile"),
            text_of("packaging/runit/codenav/run"),
        }
        for text in used:
            self.assertRegex(text, rf"(127\.0\.0\.1:|CODENAV_PORT:-){asked}\b")


class Installed(unittest.TestCase):
    """The front's files, installed into a folder in place of the system's."""

    def setUp(self) -> None:
        if os.getuid() != 0 or not shutil.which("nginx", path="/usr/sbin:/usr/bin"):
            self.skipTest("this isn't root, or nginx isn't there (Debian's nginx)")
        self.folder = self.enterContext(tempfile.TemporaryDirectory())
        shutil.copytree(os.path.join(PACKAGING, "front"), f"{self.folder}/front")
        for name in "nginx/conf.d", "haproxy", "log":
            os.makedirs(f"{self.folder}/{name}")
        self.write("haproxy/haproxy.cfg", "# of the site\n")
        script = self.text("front/install").replace("/var/log/nginx", f"{self.folder}/log")
        for name in "nginx", "haproxy":
            script = script.replace(f"/etc/{name}", f"{self.folder}/{name}")
        self.write("front/install", script)

    def text(self, name: str) -> str:
        return text_of(self.folder, name)

    def write(self, name: str, text: str) -> None:
        with open(f"{self.folder}/{name}", "w", encoding="utf-8") as out:
            out.write(text)

    def install(self, *kind: str) -> list[str]:
        """The lines that it prints, without the folder."""
        words = ["sh", f"{self.folder}/front/install", *kind]
        done = subprocess.run(words, check=True, capture_output=True, text=True)
        self.assertEqual(done.stderr, "")
        return done.stdout.replace(f"{self.folder}/", "").splitlines()

    def test_again(self) -> None:
        """What an administrator changed stays, and what was there before the front is kept."""
        said = self.install("haproxy")
        self.assertEqual(
            said[0], "install: haproxy/haproxy.cfg of before is haproxy/haproxy.cfg.before"
        )
        self.assertEqual(self.text("haproxy/haproxy.cfg.before"), "# of the site\n")
        self.assertEqual(os.stat(f"{self.folder}/log/codenav.log").st_mode & 0o777, 0o640)
        self.assertRegex(said[1], "^ci:[0-9a-f]{32}$")
        own = ["nginx/codenav/http.conf", "nginx/codenav/rights", "haproxy/haproxy.cfg"]
        own += ["nginx/conf.d/codenav.conf"]
        for name in [*own, "nginx/codenav/users"]:
            self.write(name, self.text(name) + "# changed\n")
        self.assertEqual(self.install("haproxy"), [])
        self.write("front/http.conf", self.text("front/http.conf") + "# newer\n")
        self.write("front/server.conf", self.text("front/server.conf") + "# newer\n")
        name = "nginx/codenav/http.conf"
        told = f"install: {name} was changed, so it stays: see {name}.new"
        self.assertEqual(self.install("haproxy"), [told])
        self.assertIn("# newer\n", self.text("nginx/codenav/server.conf"))
        self.assertIn("# newer\n", self.text(f"{name}.new"))
        for name in [*own, "nginx/codenav/users"]:
            self.assertEqual(self.text(name).count("# changed\n"), 1, name)

    def test_pages(self) -> None:
        """Those of codenav browse come behind the front that's there, by a host name."""
        self.install("lua")
        self.assertEqual(self.install("pages", "code.example"), [])
        # nginx reads them in this order, and the first one answers other names
        names = sorted(os.listdir(f"{self.folder}/nginx/conf.d"))
        self.assertEqual(names, ["codenav.conf", "codenav_pages.conf"])
        made = self.text(f"nginx/conf.d/{names[1]}")
        self.assertIn("\n    server_name code.example;\n", made)
        words = ["sh", f"{self.folder}/front/install", "pages"]
        self.assertEqual(subprocess.run(words, capture_output=True, check=False).returncode, 2)

    def test_the_other_front(self) -> None:
        """A front that wasn't changed is replaced by the other one."""
        self.install("lua")
        self.assertEqual(self.install("haproxy")[1:], [])
        self.assertEqual(
            self.text("nginx/conf.d/codenav.conf"), self.text("front/haproxy/codenav.conf")
        )


class LaidOut(unittest.TestCase):
    def setUp(self) -> None:
        found = built_program()
        if found is None:
            self.skipTest(NOT_BUILT)
        self.program = found
        self.folder = self.enterContext(tempfile.TemporaryDirectory())

    def test_what_a_package_has(self) -> None:
        """Each word runs from where it's installed, and each tool has a manual page; try-it's
        answers come, by a link to the command too."""
        made = f"{self.folder}/made"
        words = [os.path.join(PACKAGING, "stage"), self.program, made]
        subprocess.run(words, check=True, capture_output=True)
        for name in TOOLS:
            path = f"{made}/usr/share/man/man1/codenav-{name}.1.gz"
            with gzip.open(path, "rt", encoding="utf-8") as page:
                self.assertIn(
                    f"usage: codenav {name} ",
                    page.read().replace("\\-", "-"),
                )
        with gzip.open(f"{made}/usr/share/man/man1/codenav.1.gz", "rt", encoding="utf-8") as page:
            self.assertIn("Usage: codenav check-lsif ", page.read().replace("\\-", "-"))
        os.symlink(f"{made}/usr/bin/codenav", f"{self.folder}/link")
        for name in [*TOOLS, *OWN]:
            done = self.called(f"{self.folder}/link", name, "--help")
            self.assertEqual((done.returncode, done.stderr), (0, ""), name)
        said = self.called(f"{made}/usr/bin/codenav", "--version").stdout
        known = "proved" if Program(self.program).is_proved() else "not known to be proved"
        self.assertIn(f", {known}: {os.path.realpath(made)}/usr/{PACKAGED}\n", said)
        tried = self.called(f"{made}/usr/bin/codenav", "try-it")
        self.assertEqual(tried.returncode, 0, tried.stdout + tried.stderr)
        self.assertTrue(os.path.exists(f"{made}/usr/share/doc/codenav/OPERATE.md"))

    def called(self, *words: str) -> "subprocess.CompletedProcess[str]":
        """A call, without the program that a variable names."""
        kept = {name: own for name, own in os.environ.items() if name != "CODENAV_PROGRAM"}
        return subprocess.run(words, env=kept, capture_output=True, text=True, check=False)

    def test_runit(self) -> None:
        """The service of runit serves, and ends when `runsv` does."""
        if not shutil.which("runsv") or os.getuid() != 0:
            self.skipTest("runsv isn't there (Debian's runit), or this isn't root")
        port = free_port()
        with open(os.path.join(PACKAGING, "runit", "codenav", "run"), encoding="utf-8") as file:
            text = file.read()
        supervise = shlex.join(command("supervise"))
        for installed, own in {
            "/etc/default/codenav": f"{self.folder}/settings",
            "chpst -u codenav:codenav": "chpst",
            "codenav supervise": f"{supervise} --program {self.program}",
            "/var/lib/codenav": f"{self.folder}/data",
        }.items():
            self.assertIn(installed, text)
            text = text.replace(installed, own)
        os.mkdir(f"{self.folder}/data")
        os.mkdir(f"{self.folder}/service")
        shutil.copy(os.path.join(PACKAGING, "runit", "codenav", "finish"), f"{self.folder}/service")
        with open(f"{self.folder}/service/run", "w", encoding="utf-8") as run:
            run.write(text)
        os.chmod(f"{self.folder}/service/run", 0o755)
        with open(f"{self.folder}/settings", "w", encoding="utf-8") as settings:
            settings.write(f"CODENAV_PORT={port}\n")
        with open(f"{self.folder}/log", "wb") as log:
            runsv = subprocess.Popen(["runsv", f"{self.folder}/service"], stdout=log, stderr=log)
        try:
            stop = time.monotonic() + SECONDS
            while "codenav supervise: serves" not in text_of(f"{self.folder}/log"):
                self.assertLess(time.monotonic(), stop)
                time.sleep(0.05)
            self.assertEqual(request(f"http://127.0.0.1:{port}/projects").status, 200)
        finally:
            runsv.terminate()
            runsv.wait(SECONDS)


if __name__ == "__main__":
    unittest.main()
