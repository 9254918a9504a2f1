"""The measures of a service for Prometheus, as node-exporter's textfile collector reads them."""

import os
from contextlib import suppress

from codenav.files import whole_file
from codenav.service.digests import files_of
from codenav.service.folder import COPIED, database_at

FILE = "codenav.prom"


def lines_of(folder: str, side: str, counts: dict[str, int]) -> list[str]:
    """A measure a line: the counts, the bytes of the database with its log, and when the last copy
    was made that's good."""
    found: dict[str, float] = {f"{name}_total": count for name, count in counts.items()}
    with suppress(OSError):
        found["database_bytes"] = sum(map(os.path.getsize, files_of(database_at(folder, side))))
    with suppress(OSError):
        found["last_copy_timestamp_seconds"] = os.stat(os.path.join(folder, COPIED)).st_mtime
    return [f"codenav_{name} {value:.0f}\n" for name, value in found.items()]


def write(folder: str, side: str, counts: dict[str, int]) -> None:
    """Writes them where systemd gave a folder for what others read (RuntimeDirectory=)."""
    place = os.environ.get("RUNTIME_DIRECTORY")
    if place:
        with suppress(OSError), whole_file(os.path.join(place, FILE)) as out:
            os.fchmod(out.fileno(), 0o644)
            out.write("".join(lines_of(folder, side, counts)).encode())
