"""Positions of a dump that counts bytes or code points, as UTF-16 code units, by the files that
were indexed."""

import os
from base64 import b64decode
from typing import Any, Optional
from urllib.parse import unquote_to_bytes

from codenav.addresses import below, folder_address
from codenav.dumps.overlaps import by_home
from codenav.dumps.prepare.labels import RANGE
from codenav.dumps.prepare.plan import DROPPED, KEPT, Options, Plan
from codenav.faults import BadCall, NotADump
from codenav.texts.columns import COUNTED, ENCODINGS, UTF_16, Columns
from codenav.texts.decoded import body_of


def convert_positions(plan: Plan, options: Options) -> None:
    """Converts the places of all ranges, where they aren't UTF-16 code units, by the texts that the
    documents have within them, else by the files; raises NotADump where these aren't known. It needs
    `contain`, and `leave_out_documents`, whose files aren't read."""
    survey, source = plan.survey, options.source
    encoding = ENCODINGS[survey.encoding]
    if encoding == UTF_16:
        return
    kept = (n for n in range(plan.count) if plan.kinds[n] == RANGE and plan.state[n] == KEPT)
    read = unread = 0
    for home, ranges in by_home(kept, plan.home).items():
        body, path = body_in(survey.texts.get(home)), survey.uris[home]
        if body is None and source is None:
            raise NotADump(
                f"{survey.name}: its positions count {COUNTED[encoding]} ({survey.encoding}): give --source, the folder that was indexed"
            )
        try:
            if body is None and source is not None:
                path = path_of(plan, path, source)
                body = body_of(path)
            columns = Columns(encoding, body or b"")
        except BadCall:
            plan.notes.leave_out("document whose file can't be read", path)
            unread += 1
            for own in (home, *ranges):
                plan.state[own] = DROPPED
            continue
        read += 1
        for own in ranges:
            convert_range(plan, own, columns)
    if unread and not read:
        raise NotADump(f"{survey.name}: none of {unread} documents can be read below {source}")


def body_in(contents: Any) -> Optional[bytes]:
    """The text that a document has within it, in base64 as the specification says or plain; None
    where there is none."""
    if not isinstance(contents, str):
        return None
    try:
        body = b64decode(contents, validate=True)
        body.decode()
        return body
    except ValueError:
        return contents.encode(errors="surrogatepass")


def path_of(plan: Plan, uri: str, source: str) -> str:
    """The file of a document, below the folder that the root is mapped to."""
    inside = below(folder_address(plan.survey.mender.root), uri)
    if inside is None:
        inside = uri.removeprefix("file://")
    return os.path.join(source, os.fsdecode(unquote_to_bytes(inside)))


def convert_range(plan: Plan, own: int, columns: Columns) -> None:
    """Converts the place of a range, which is left out where the text has no such place."""
    for places in (plan.survey.numbers.starts, plan.survey.numbers.ends):
        line = places[own] >> 31
        units = columns.units(line, places[own] & 0x7FFFFFFF)
        if units is None:
            line = plan.survey.numbers.lines[own]
            plan.notes.leave_out("range beyond the end of its line, or of the text", f"line {line}")
            plan.state[own] = DROPPED
            return
        places[own] = line << 31 | units
