"""What the scripts that measure share: the path of the tools, requests over loopback, an nginx, and
what processes take."""

import http.client
import json
import os
import pathlib
import subprocess
import sys
import tempfile
import time
from contextlib import contextmanager
from typing import IO, Any, Callable, Iterator, NamedTuple, Optional

TOP = pathlib.Path(__file__).resolve().parent.parent
sys.path[:0] = [str(TOP / "tools"), str(TOP / "checks")]
WAIT = 600

CONFIG = """
daemon off;
master_process off;
pid {folder}/nginx.pid;
error_log {folder}/error.log;
events {{ }}
http {{
    access_log off;
    client_body_temp_path {folder}/body;
    proxy_temp_path {folder}/proxy;
    fastcgi_temp_path {folder}/fastcgi;
    uwsgi_temp_path {folder}/uwsgi;
    scgi_temp_path {folder}/scgi;
    client_max_body_size 33554432;
    server {{
        listen 127.0.0.1:{port};
        keepalive_timeout 0;
        location = /fixed {{
            default_type application/json;
            return 200 '{{"projects":[]}}';
        }}
    }}
}}
"""


def ask(
    port: int, method: str, path: str, body: Optional[bytes] = None
) -> tuple[int, dict[str, Any]]:
    """The status and the reply of a request."""
    connection = http.client.HTTPConnection("127.0.0.1", port, timeout=WAIT)
    connection.request(method, path, body)
    answer = connection.getresponse()
    reply = answer.status, json.loads(answer.read())
    connection.close()
    return reply


@contextmanager
def nginx(folder: str, port: int) -> Iterator[None]:
    """An nginx on a port, which has the path `/fixed`, with a fixed reply."""
    config = pathlib.Path(folder, "nginx.conf")
    config.write_text(CONFIG.format(folder=folder, port=port), encoding="utf-8")
    process = subprocess.Popen(
        ["/usr/sbin/nginx", "-p", folder, "-e", f"{folder}/error.log", "-c", str(config)]
    )
    try:
        wait_for(lambda: ask(port, "GET", "/fixed")[0] == 200)
        yield
    finally:
        process.terminate()
        process.wait()


def wait_for(is_there: Callable[[], bool]) -> None:
    """Waits until something is there, ten seconds at most."""
    for _ in range(100):
        try:
            if is_there():
                return
        except OSError:
            pass
        time.sleep(0.1)
    raise OSError(None, "nothing came", "nginx")


def least_times(calls: dict[str, Callable[[], object]], count: int) -> dict[str, float]:
    """The seconds that each call takes when it's made so often, one after the other: the least of
    five turns, which all calls take together."""
    least: dict[str, float] = {}
    for _ in range(5):
        for name, call in calls.items():
            start = time.perf_counter()
            for _ in range(count):
                call()
            taken = (time.perf_counter() - start) / count
            least[name] = min(taken, least.get(name, taken))
    return least


def resident_bytes(process: int) -> int:
    """The memory that a process holds."""
    with open(f"/proc/{process}/statm", encoding="ascii") as file:
        return int(file.read().split()[1]) * os.sysconf("SC_PAGE_SIZE")


class Spent(NamedTuple):
    """What a program printed, its status, and the seconds that it took, of the clock and of a
    processor."""

    output: bytes
    error: str
    status: int
    passed: float
    used: float


def spent(*words: str, output: Optional[IO[bytes]] = None) -> Spent:
    """Runs a program, whose standard output goes to a file where one is given."""
    with tempfile.TemporaryFile() as own, tempfile.TemporaryFile() as error:
        out, begin = output or own, time.perf_counter()
        process = subprocess.Popen(words, stdin=subprocess.DEVNULL, stdout=out, stderr=error)
        _, status, usage = os.wait4(process.pid, 0)
        passed = time.perf_counter() - begin
        process.returncode = os.waitstatus_to_exitcode(status)
        own.seek(0)
        error.seek(0)
        said = error.read().decode(errors="replace")
        return Spent(own.read(), said, process.returncode, passed, usage.ru_utime + usage.ru_stime)


def with_memory(*words: str, output: Optional[IO[bytes]] = None) -> tuple[Spent, int]:
    """The same, and the most memory that the program held, in bytes. What the system says of a
    child counts the memory of this process too, but not that of a child's child."""
    with tempfile.NamedTemporaryFile("r") as said:
        time_words = "/usr/bin/time", "--format=%M", "--quiet", f"--output={said.name}"
        done = spent(*time_words, *words, output=output)
        return done, int(said.read()) << 10
