"""Tests of the clone's command `codenav` where the program isn't built yet, over a command `rt`
that proves nothing."""

import os
import re
import select
import shutil
import signal
import subprocess
import tempfile
import unittest
from unittest import mock

from tests.servers import SECONDS, TOP

# each call is kept in `calls`; a file `during-NAME` is run where the crate is
RT = """#!/bin/sh
here=${PWD##*/}
echo "$here $*" >>"$CALLS"
echo "rt: of $here"
[ ! -e "$CALLS-during-$here" ] || . "$CALLS-during-$here" || exit 1
[ "$1" != run ] || { mkdir -p out; printf '#!/bin/sh\\necho "ran $*"\\n' >out/codenav; chmod +x out/codenav; }
"""
LINES = """# codenav: no crate
high: low kit
low: kit
other: low
codenav: low high other kit
beside: low
"""


class FirstCall(unittest.TestCase):
    """A clone of three libraries and the program."""

    env: dict[str, str] = {}

    def setUp(self) -> None:
        self.home = os.path.realpath(self.enterContext(tempfile.TemporaryDirectory()))
        self.top, self.calls = (os.path.join(self.home, it) for it in ("clone", "calls"))
        for crate in ("low", "high", "other", "codenav", "beside"):
            self.write(f"clone/crates/{crate}/src/lib.rt", "")
        shutil.copy(os.path.join(TOP, "codenav"), self.top)
        self.write("clone/crates.txt", LINES)
        os.chmod(self.write("bin/rt", RT), 0o755)
        os.mkdir(os.path.join(self.home, "tmp"))

    def write(self, name: str, text: str) -> str:
        path = os.path.join(self.home, name)
        os.makedirs(os.path.dirname(path), exist_ok=True)
        with open(path, "w", encoding="utf-8") as file:
            file.write(text)
        return path

    def begin(self, *words: str) -> "subprocess.Popen[str]":
        """A call of the command, whose processes are a group of their own."""
        places = [os.path.join(self.home, "bin"), "/usr/bin", "/bin"]
        return subprocess.Popen(
            [os.path.join(self.top, "codenav"), *words],
            stdin=subprocess.DEVNULL,
            stdout=subprocess.PIPE,
            stderr=subprocess.PIPE,
            env={
                "PATH": ":".join(places),
                "CALLS": self.calls,
                "TMPDIR": os.path.join(self.home, "tmp"),
                **self.env,
            },
            text=True,
            start_new_session=True,
        )

    def call(self) -> tuple[int, str, list[str], list[str]]:
        """A call's status, what it printed, the lines of its standard error, and the calls of `rt`,
        after which no file is left."""
        process = self.begin("check-lsif", "a b")
        said, complained = process.communicate(timeout=SECONDS)
        self.assertEqual(os.listdir(os.path.join(self.home, "tmp")), [])
        lines = re.sub(r"after \d+ minutes", "after N minutes", complained).splitlines()
        return process.returncode, said, lines, self.called()

    def called(self) -> list[str]:
        """The calls of `rt` since the last look."""
        if not os.path.exists(self.calls):
            return []
        with open(self.calls, encoding="utf-8") as file:
            calls = file.read().splitlines()
        os.remove(self.calls)
        return calls

    BUILT = ["low lib", "high lib", "other lib", "codenav run -- --help"]

    def test_each_crate_from_below(self) -> None:
        self.assertEqual(
            self.call(),
            (
                0,
                "ran check-lsif a b\n",
                [
                    "codenav: building the program, which proves it first: README.md says how long that takes",
                    "codenav: proving low, 1 of 4, after N minutes",
                    "codenav: proving high, 2 of 4, after N minutes",
                    "codenav: proving other, 3 of 4, after N minutes",
                    "codenav: proving the program, the last, after N minutes",
                ],
                self.BUILT,
            ),
        )
        self.assertEqual(self.call(), (0, "ran check-lsif a b\n", [], []))

    def test_a_program_that_is_named(self) -> None:
        """Nothing is built for CODENAV_PROGRAM, which is called in its place."""
        named = self.write("named", '#!/bin/sh\necho "named $*"\n')
        os.chmod(named, 0o755)
        shutil.copytree(os.path.join(TOP, "tools/codenav"), f"{self.top}/tools/codenav")
        self.enterContext(mock.patch.dict(self.env, {"CODENAV_PROGRAM": named}))
        self.assertEqual(self.call(), (0, "named check-lsif a b\n", [], []))

    def test_a_source_that_changed(self) -> None:
        self.assertEqual(self.call()[3], self.BUILT)
        for name in ("crates/high/src/lib.rt", "crates.txt"):
            with self.subTest(name):
                built = os.stat(os.path.join(self.top, "crates/codenav/out/codenav")).st_mtime_ns
                os.utime(os.path.join(self.top, name), ns=(built + 1_000_000,) * 2)
                self.assertEqual((self.call()[3], self.call()[3]), (self.BUILT, []))

    def test_a_source_that_changes_meanwhile(self) -> None:
        """The next call builds again."""
        self.write("calls-during-other", f"sleep 0.1; touch {self.top}/crates/low/src/lib.rt")
        self.assertEqual(self.call()[3], self.BUILT)
        os.remove(os.path.join(self.home, "calls-during-other"))
        self.assertEqual((self.call()[3], self.call()[3]), (self.BUILT, []))

    def test_a_proof_that_fails(self) -> None:
        """What `rt` said is shown, nothing above the crate is tried, and no program is called."""
        for crate, count in ("high", 2), ("codenav", 4):
            with self.subTest(crate):
                self.write(f"calls-during-{crate}", "false")
                status, said, complained, calls = self.call()
                self.assertEqual(
                    (status, said, complained[-1], calls),
                    (2, "", f"rt: of {crate}", self.BUILT[:count]),
                )
                os.remove(os.path.join(self.home, f"calls-during-{crate}"))

    def test_ended_by_a_signal(self) -> None:
        """No file of what was said is left."""
        self.write("calls-during-high", 'echo >"$CALLS-begun"; exec sleep 600')
        os.mkfifo(f"{self.calls}-begun")
        for number in (signal.SIGINT, signal.SIGTERM):
            with self.subTest(number.name):
                begun = os.open(f"{self.calls}-begun", os.O_RDONLY | os.O_NONBLOCK)
                process = self.begin("serve")
                seen = select.select([begun], [], [], SECONDS)[0]
                os.killpg(process.pid, number)
                process.communicate(timeout=SECONDS)
                os.close(begun)
                self.assertEqual((seen, process.returncode), ([begun], 130))
                self.assertEqual(os.listdir(os.path.join(self.home, "tmp")), [])

    def test_no_kit(self) -> None:
        os.remove(os.path.join(self.home, "bin/rt"))
        said = "codenav: the program isn't built, and the Rattle kit's rt, which builds it, isn't there"
        self.assertEqual(self.call(), (2, "", [said], []))


if __name__ == "__main__":
    unittest.main()
