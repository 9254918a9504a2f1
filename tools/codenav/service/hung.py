"""Whether a server hangs: it neither answers, though it's asked again and again, nor works. One that
has others' requests first works, and one that is copied stands while the folder is locked."""

import threading
import time

from codenav.client.http import request
from codenav.program import Running
from codenav.service.folder import is_locked

EACH = 30.0


def worked(process: int) -> str:
    """The time for which a process has worked, as the system counts it."""
    try:
        with open(f"/proc/{process}/stat", encoding="utf-8", errors="replace") as file:
            return " ".join(file.read().rpartition(") ")[2].split()[11:13])
    except OSError:
        return ""


class Watch:
    """What was heard of a server that listens, which may be silent for so many seconds."""

    def __init__(self, folder: str, seconds: float) -> None:
        self.folder, self.seconds, self.work = folder, seconds, ""
        self.heard = self.asked = time.monotonic()
        self.asking = threading.Thread()

    def ask(self, url: str) -> None:
        """Asks for what every server refuses at once."""
        if request(f"{url}/", seconds=self.seconds).status:
            self.heard = time.monotonic()

    def hangs(self, server: Running) -> bool:
        """Whether nothing was heard for too long; asks again where it's time to."""
        now, work = time.monotonic(), worked(server.pid)
        if work != self.work:
            self.heard, self.work = now, work
        if now - self.asked > min(EACH, self.seconds / 4) and not self.asking.is_alive():
            self.asking = threading.Thread(target=self.ask, args=(server.url,), daemon=True)
            self.asking.start()
            self.asked = now
        return now - self.heard > self.seconds and not is_locked(self.folder)
