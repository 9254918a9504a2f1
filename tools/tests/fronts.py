"""The fronts of packaging/front, started as they're installed but for their ports and folders:
nginx with Lua, and nginx and HAProxy."""

import base64
import glob
import os
import re
import shutil
import socket
import ssl
import subprocess
import time
from contextlib import ExitStack, contextmanager
from dataclasses import dataclass, field
from http.client import HTTPSConnection
from typing import Callable, Iterator, Optional
from urllib.parse import urlsplit

from codenav.client.http import Answer, request
from codenav.faults import Failed
from codenav.program import free_port
from tests.servers import TOP, ended

KINDS = {"lua": "nginx with Lua", "haproxy": "nginx and HAProxy"}
PACKAGES = "apt-get install nginx libnginx-mod-http-lua haproxy openssl"
LUA_MODULES = "/usr/share/nginx/modules-available/mod-http-*.conf"
USER = "ci:secret"
READER, OWNER = "reader:secret", "alice:secret"
RATE, BURST = "rate=200r/s", "burst=400"
UNLIMITED = ("rate=100000r/s", "burst=10000")
SECONDS = 20
# how long a front holds a request while its server is away
LONGEST = 600
SERVER_LINES = re.compile(r"(?:    server \S+ max_fails=0;\n)+")
# a port that no server of a test is given
NOBODY = "127.0.0.1:9"
MAIN = """
daemon off;
user {user};
worker_processes 2;
pid {folder}/nginx.pid;
error_log {folder}/error.log;
{modules}
events {{ worker_connections 2048; }}
http {{
    client_body_temp_path {folder}/body;
    proxy_temp_path {folder}/proxy;
    fastcgi_temp_path {folder}/fastcgi;
    uwsgi_temp_path {folder}/uwsgi;
    scgi_temp_path {folder}/scgi;
    include {folder}/codenav.conf;
}}
"""


def lacking(kind: str) -> Optional[str]:
    """Why a front can't be started here, if it can't, with the command that installs what it
    needs."""
    names = ["nginx", "openssl"] + (["haproxy"] if kind == "haproxy" else [])
    missing = [name for name in names if not found_program(name)]
    if kind == "lua" and not any("lua" in path for path in glob.glob(LUA_MODULES)):
        missing.append("nginx's Lua module")
    return f"{', '.join(missing)} not found: {PACKAGES}" if missing else None


def found_program(name: str) -> Optional[str]:
    """Where a program is, also in the folders of an administrator's programs."""
    return shutil.which(name, path=f"{os.environ.get('PATH', '')}:/usr/sbin:/sbin")


@dataclass
class Front:
    """A front that runs: the ports of its own, of which that with Lua has one for who asks on this
    machine, the folder of its files, and how it's asked."""

    kind: str
    folder: str
    port: int = field(default_factory=free_port)
    local: int = field(default_factory=free_port)
    asked: int = field(default_factory=free_port)
    queue: int = field(default_factory=free_port)
    more_queues: list[int] = field(default_factory=list)
    longest: int = LONGEST

    @property
    def url(self) -> str:
        return f"https://127.0.0.1:{self.port}"

    def context(self) -> ssl.SSLContext:
        """Trusts the front's own certificate."""
        return ssl.create_default_context(cafile=f"{self.folder}/codenav/certificate.pem")

    def ask(
        self, method: str, path: str, body: Optional[bytes] = None, login: Optional[str] = USER
    ) -> tuple[int, dict[str, str], bytes]:
        """The status, the fields and the body of a reply; sent once."""
        connection = HTTPSConnection("127.0.0.1", self.port, timeout=60, context=self.context())
        connection.putrequest(method, path)
        for name, value in (authorization(login) if login else {}).items():
            connection.putheader(name, value)
        if body is not None:
            connection.putheader("Content-Length", str(len(body)))
        connection.endheaders()
        try:
            connection.send(body or b"")
        except (BrokenPipeError, ConnectionResetError):
            pass
        reply = connection.getresponse()
        answer = reply.status, dict(reply.getheaders()), reply.read()
        connection.close()
        return answer

    def local_answer(self, path: str, method: str = "GET") -> Answer:
        """What the front says of itself, on its port for this machine."""
        return request(f"http://127.0.0.1:{self.local}{path}", method, seconds=SECONDS)


def authorization(login: str) -> dict[str, str]:
    """The field that a login is sent by."""
    return {"Authorization": f"Basic {base64.b64encode(login.encode()).decode()}"}


def rendered(text: str, front: Front, servers: list[str], limits: tuple[str, str]) -> str:
    """A file of a front with the ports, the folders and the servers of a trial in place of those
    that it's installed with."""
    for shown, own in {
        "/etc/nginx/codenav/": f"{front.folder}/codenav/",
        "/var/log/nginx/codenav.log": f"{front.folder}/access.log",
        "/var/lib/codenav/side": f"{front.folder}/side",
        "/run/codenav/codenav.prom": f"{front.folder}/codenav.prom",
        "/run/haproxy/codenav.sock": f"{front.folder}/haproxy.sock",
        "listen 443 ssl": f"listen 127.0.0.1:{front.port} ssl",
        "listen [::]:443 ssl": f"listen [::1]:{front.port} ssl",
        "listen 127.0.0.1:8090": f"listen 127.0.0.1:{front.asked}",
        "127.0.0.1:8090 yes": f"127.0.0.1:{front.asked} yes",
        "    server 127.0.0.1:8091 max_fails=0;\n": "".join(
            f"    server {server} max_fails=0;\n" for server in servers[:-1]
        ),
        "server one 127.0.0.1:8090": f"server one {servers[0]}",
        "127.0.0.1:8092": servers[-1],
        "127.0.0.1:8089": f"127.0.0.1:{front.local}",
        "127.0.0.1:8093": f"127.0.0.1:{front.queue}",
        RATE: limits[0],
        BURST: limits[1],
        f"LONGEST, PAUSE = {LONGEST}": f"LONGEST, PAUSE = {front.longest}",
        f"retries {LONGEST}": f"retries {front.longest}",
        f"timeout queue {LONGEST}s": f"timeout queue {front.longest}s",
    }.items():
        text = text.replace(shown, own)
    return with_more_queues(text, front, servers) if front.more_queues else text


def with_more_queues(text: str, front: Front, servers: list[str]) -> str:
    """A file of the front of HAProxy for several machines: each has a queue of its own, and nginx
    picks one by the name (docs/SCALE.md)."""
    line = f"    server 127.0.0.1:{front.queue} max_fails=0;\n"
    others = [line.replace(str(front.queue), str(queue)) for queue in front.more_queues]
    if line in text:
        hashed = "    hash $codenav_shard consistent;\n"
        return text.replace(line * 4, hashed + "".join(one * 4 for one in [line, *others]))
    if "backend codenav\n" not in text:
        return text
    return text + "".join(
        f"frontend codenav{queue}\n    bind 127.0.0.1:{queue}\n    default_backend codenav{queue}\n"
        f"backend codenav{queue}\n    server one {server} maxconn 1\n"
        for queue, server in zip(front.more_queues, servers[1:])
    )


def write_files(front: Front, servers: list[str], limits: tuple[str, str]) -> None:
    """Writes the front's files into its folder, with a login and a certificate."""
    source, own = os.path.join(TOP, "packaging", "front"), f"{front.folder}/codenav"
    os.makedirs(own)
    shared = [f"{source}/rights", *glob.glob(f"{source}/*.conf")]
    for path in shared + glob.glob(f"{source}/{front.kind}/*"):
        name = os.path.basename(path)
        target = (
            f"{front.folder}/{name}" if name in ("codenav.conf", "haproxy.cfg") else f"{own}/{name}"
        )
        with open(path, encoding="utf-8") as file, open(target, "w", encoding="utf-8") as out:
            out.write(rendered(file.read(), front, servers, limits))
    with open(f"{own}/users", "w", encoding="utf-8") as users:
        for login in USER, READER, OWNER:
            users.write(login.replace(":", ":{PLAIN}") + "\n")
    words = ["openssl", "req", "-x509", "-newkey", "rsa:2048", "-nodes", "-days", "2"]
    words += ["-subj", "/CN=codenav", "-addext", "subjectAltName=IP:127.0.0.1"]
    words += ["-keyout", f"{own}/key.pem", "-out", f"{own}/certificate.pem"]
    subprocess.run(words, check=True, capture_output=True)
    modules = sorted(glob.glob(LUA_MODULES), reverse=True) if front.kind == "lua" else []
    texts = {
        "folder": front.folder,
        "user": "root" if os.getuid() == 0 else "nobody",
        "modules": "".join(f"include {path};\n" for path in modules),
    }
    with open(f"{front.folder}/nginx.conf", "w", encoding="utf-8") as main:
        main.write(MAIN.format(**texts))


@contextmanager
def running(words: list[str], log: str) -> Iterator[subprocess.Popen[bytes]]:
    """A program of a front, which ends with the context; what it prints goes to a log."""
    with open(log, "ab") as out:
        process = subprocess.Popen(
            words, stdin=subprocess.DEVNULL, stdout=out, stderr=subprocess.STDOUT
        )
    try:
        yield process
    finally:
        ended(process)


def wait_for_port(port: int, process: subprocess.Popen[bytes], log: str) -> None:
    """Waits until a program of the front listens on its port; says what it wrote where it
    doesn't."""
    stop = time.monotonic() + SECONDS
    while process.poll() is None and time.monotonic() < stop:
        with socket.socket() as peer:
            if peer.connect_ex(("127.0.0.1", port)) == 0:
                return
        time.sleep(0.02)
    with open(log, encoding="utf-8") as file:
        raise Failed(f"the front didn't start: {file.read()}")


@contextmanager
def fronted(
    kind: str,
    folder: str,
    servers: list[str],
    limits: tuple[str, str] = UNLIMITED,
    longest: int = LONGEST,
    asked: Optional[int] = None,
    rights: Callable[[str], str] = str,
) -> Iterator[Front]:
    """A front before servers, of which the last is the one that takes turns with the first; it's at
    the folder, which is empty, has a port that's asked on this machine, and rights that may be changed.
    """
    front = Front(kind, folder, longest=longest, asked=asked or free_port())
    servers = servers if len(servers) > 1 else [*servers, NOBODY]
    if kind == "haproxy":
        front.more_queues = [free_port() for _ in servers[1:-1]]
    write_files(front, servers, limits)
    with open(f"{folder}/codenav/rights", encoding="utf-8") as file:
        text = rights(file.read())
    with open(f"{folder}/codenav/rights", "w", encoding="utf-8") as out:
        out.write(text)
    nginx = [str(found_program("nginx")), "-e", f"{folder}/error.log", "-c", f"{folder}/nginx.conf"]
    haproxy = [str(found_program("haproxy")), "-db", "-f", f"{folder}/haproxy.cfg"]
    programs = {front.queue: haproxy} if kind == "haproxy" else {}
    with ExitStack() as stack:
        for port, words in {**programs, front.port: nginx}.items():
            log = f"{folder}/{os.path.basename(words[0])}.log"
            wait_for_port(port, stack.enter_context(running(words, log)), log)
        yield front


def another_queue(front: Front, server: str) -> tuple[int, list[str]]:
    """The HAProxy before a machine that is added, with a file of its own: its port, and how it's
    started."""
    queue, path = free_port(), f"{front.folder}/haproxy-{host_port(server)}.cfg"
    with open(f"{front.folder}/haproxy.cfg", encoding="utf-8") as file:
        text = file.read().partition("frontend ")[0].replace(".sock", f"-{queue}.sock")
    with open(path, "w", encoding="utf-8") as out:
        out.write(
            f"{text}frontend codenav\n    bind 127.0.0.1:{queue}\n    default_backend codenav\n"
            f"backend codenav\n    server one {server} maxconn 1\n"
        )
    return queue, [str(found_program("haproxy")), "-db", "-f", path]


@contextmanager
def adding(front: Front, server: str) -> Iterator[tuple[str, str, str]]:
    """A server more for a front of several: how the front is to name it, and the lines of a shell
    that add it to the front and that take it away again."""
    place, times, config = server, 1, f"{front.folder}/codenav.conf"
    with ExitStack() as stack:
        if front.kind == "haproxy":
            queue, words = another_queue(front, server)
            log = f"{front.folder}/haproxy-{queue}.log"
            wait_for_port(queue, stack.enter_context(running(words, log)), log)
            place, times = f"127.0.0.1:{queue}", 4
        with open(config, encoding="utf-8") as file:
            text = file.read()
        line = f"    server {place} max_fails=0;\n" * times
        texts = {"less": text, "more": SERVER_LINES.sub(lambda own: own[0] + line, text, count=1)}
        for name, own in texts.items():
            with open(f"{config}.{name}", "w", encoding="utf-8") as out:
                out.write(own)
        nginx, folder = found_program("nginx"), front.folder
        reload = f"{nginx} -e {folder}/error.log -c {folder}/nginx.conf -s reload"
        more, less = (f"cp {config}.{name} {config} && {reload}" for name in ("more", "less"))
        yield place, more, less


def host_port(server: str) -> str:
    """The port of a server that is named by its host and port."""
    return server.rpartition(":")[2]


def host_of(url: str) -> str:
    """The host and the port of a server's address, as the files of a front have them."""
    return urlsplit(url).netloc
