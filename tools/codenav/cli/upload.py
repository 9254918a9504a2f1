"""`codenav upload`."""

import argparse
import os
import shlex
import sys
from dataclasses import dataclass
from typing import IO, Optional, Sequence

from codenav.cli.command import Command
from codenav.cli.options import URL_HELP, add_retry, add_words, url_in
from codenav.client.http import refusal_of, reply_in
from codenav.client.projects import fresh_key, once_key
from codenav.dumps.dump import HEAD_BYTES, is_index, profile_in
from codenav.dumps.lsif.reading import MARKS
from codenav.dumps.packed import GZIP, ZSTD, opened
from codenav.faults import BadCall, NoReply
from codenav.names import key_of, new_project, server_of, shown_name
from codenav.publishing.made import Body
from codenav.publishing.send import put_body
from codenav.sets.publish.publish import Publish
from codenav.sets.publish.store import Store
from codenav.texts.checked_out import indexed_at

TOOL = "codenav upload"
FORM = "[URL] PROJECT FILE.. | [URL] FOLDER"


@dataclass(slots=True)
class UploadCall:
    """What `upload` is told."""

    retry: bool = False
    key: Optional[str] = None
    once: bool = False
    profile: Optional[str] = None
    revision: Optional[str] = None
    words: Sequence[str] = ()


def add_upload(parser: argparse.ArgumentParser) -> None:
    """The words of `upload`."""
    add_retry(parser)
    keys = parser.add_mutually_exclusive_group()
    keys.add_argument("--key", help="a key of your own, for one file")
    keys.add_argument(
        "--once",
        action="store_true",
        help="a key that is made of the body: the same body acts once for good",
    )
    parser.add_argument(
        "--profile",
        choices=["1", "2"],
        help="how a dump is read; 2 has declarations and implementations too, and is taken without it where the dump has such",
    )
    parser.add_argument(
        "--revision",
        metavar="REV",
        help="the git revision that was indexed, in the checkout of the call: its commit is said, by which to ask where files changed since",
    )
    add_words(
        parser,
        FORM,
        f"{URL_HELP}. FILE is a prepared dump or a tags file, or - for the standard input; FOLDER has the set that `codenav prepare` wrote",
    )


def part_of(file: IO[bytes], name: str) -> str:
    """`lsif` where a file has a dump, and `tags` where it has tags. Raises BadCall."""
    head = file.read(HEAD_BYTES)
    if is_index(head) or head.startswith((GZIP, ZSTD)):
        what = "a SCIP index" if is_index(head) else "packed"
        raise BadCall(f"{name}: {what}: `codenav prepare` makes the dump that the server takes")
    if head.startswith(tuple(mark for mark, _ in MARKS)):
        text = "a tags file has none, and `codenav prepare` makes a dump without it"
        raise BadCall(f"{name}: it begins with a byte order mark: {text}")
    if head.lstrip()[:1] in (b"{", b"["):
        return "lsif"
    if b"\t" not in head.partition(b"\n")[0]:
        raise BadCall(f"{name}: neither a dump nor a tags file")
    return "tags"


def upload_file(call: UploadCall, server: str, project: str, path: str) -> int:
    """Uploads a file and prints the reply; answers 0 where it was accepted, and 1 at a fault of the
    server's."""
    name = "standard input" if path == "-" else path
    with opened(path) as file:
        part = part_of(file, name)
        profile = (call.profile or profile_in(file)) if part == "lsif" else None
        key = fresh_key(part) if call.key is None else key_of(call.key)
        if call.once:
            key = once_key(part, file, profile or "1")
        answer, over = put_body(server, Body(project, part, name, profile), file, key, call.retry)
    reply = reply_in(answer) or {}
    if ("count" if answer.status == 200 else "fault") not in reply:
        raise BadCall(refusal_of(answer))
    print(answer.body.decode(), flush=True)
    for one in over:
        print(f"{TOOL}: {one}: it can't be accepted", file=sys.stderr)
    if answer.status == 422 and "line" in reply and path != "-":
        fault = f"line {reply['line']}: {refusal_of(answer)}"
        words = shlex.join(["codenav", "explain", path, fault])
        print(f"{TOOL}: {words} says what it is to be", file=sys.stderr)
    if answer.status == 503 and not over:
        print(f"{TOOL}: {refusal_of(answer)}", file=sys.stderr)
    return 0 if answer.status == 200 else 1


def upload_files(call: UploadCall, server: str, project: str, paths: list[str]) -> int:
    """Uploads files one after the other, up to one that isn't accepted."""
    if call.key is not None and len(paths) > 1:
        raise BadCall("--key is for one file")
    commit, fault = indexed_at(os.curdir, call.revision) if call.revision else ("", "")
    status = 0
    for path in paths:
        status = status or upload_file(call, server, new_project(project), path)
    if commit and not status:
        line = (
            f"the index is of revision {commit}: where files changed ask with --revision {commit}"
        )
        for said in filter(None, (line, fault)):
            print(f"{TOOL}: {said}", file=sys.stderr)
    return status


def upload_set(call: UploadCall, server: str, folder: str) -> int:
    """Publishes the set in a folder, and prints what was done."""
    publish = Publish(Store(server), folder)
    try:
        print(publish.run().line())
    except NoReply as fault:
        state = (
            "is switched, and the next upload removes what is left"
            if publish.is_switched
            else "is as it was"
        )
        raise BadCall(f"{fault}; the set {shown_name(publish.head.name)} {state}") from None
    return 0


def run_upload(call: UploadCall) -> int:
    """Uploads what the words of a call name."""
    known = os.environ.get("CODENAV_URL", "")
    url, rest = url_in([*call.words], len(call.words) if known else 0)
    if not rest:
        raise BadCall(f"it takes {FORM.replace(' | ', ' or ')}")
    server = server_of(url or known)
    if len(rest) == 1:
        return upload_set(call, server, rest[0])
    return upload_files(call, server, rest[0], rest[1:])


UPLOAD = Command(
    "upload",
    "Uploads dumps and tags files, which are known by what they have, to a project, and prints the "
    "server's replies; or publishes the set in a folder.\n\n"
    "The server keeps the key of each upload with its reply: the same key again gets that reply, and "
    "nothing changes. So each call has a key of its own for each file, which all its retries share: "
    "sent again, an upload acts once. With --once the key is made of the body, its kind and its "
    "profile, so that calls with one body act once too. That is a trap where the project changed "
    "meanwhile: after A, B and A again, or after a removal, the kept reply comes back and B, or "
    "nothing, stays.\n\n"
    "Of a set the parts that the server hasn't are put, then the manifest, which is the switch, and "
    "then the parts of before are removed. Whoever asks is answered from the old set up to the "
    "switch, and from the new one then; an upload that ends before leaves the old set answering.",
    UploadCall,
    add_upload,
    run_upload,
    epilog="status: 0 where all was accepted; 1 at a fault of the server's; 2 where something can't be carried out",
    usage=f"%(prog)s [-h] [OPTION..] {FORM}",
    is_mixed=True,
)
