"""The one spelling of documents' addresses. Indexers and editors write the same file in several
ways, as `file:///c%3A/x`, `file:///C:/x` and `file:///c:/x`, which are three documents to the
server. So the tools write and ask for each in one: percent-encoded where it has to be, with the
hexadecimal digits in upper case, and with the letter of a drive in lower case.
"""

import fnmatch
import os
import re
import string
from typing import Optional
from urllib.parse import quote, unquote, unquote_to_bytes

from codenav.urls import C0_OR_SPACE, UNSEEN, href

KEPT = "".join(c for c in string.punctuation if c not in '"#<>?^`{}%\\')
FILE = re.compile(
    r"file:(?:[/\\]{2}(?P<host>(?![a-z][:|](?:[/\\?#]|$))[^/\\?#]*))?(?P<path>.*)", re.I | re.DOTALL
)
DRIVE = re.compile(r"^/([A-Za-z])[:|](?=/|$)")
WINDOWS = re.compile(r"[A-Za-z]:(?:/|$)")
DIGITS = re.compile("%[0-9A-Fa-f]{2}")


def spelled(uri: str) -> str:
    """An address in the one spelling; of other addresses than files' it's the text by which the
    server knows them, in which the digits of `%c3` alone change, since what `%2F` is there isn't
    known."""
    uri = UNSEEN.sub("", uri.strip(C0_OR_SPACE))
    found = FILE.fullmatch(uri)
    if found is None:
        return DIGITS.sub(lambda digits: digits[0].upper(), serialized(uri))
    path = quote(unquote_to_bytes(found["path"].replace("\\", "/")), safe=KEPT)
    path = "/" + without_dots("/" + path.lstrip("/")).lstrip("/")
    path = DRIVE.sub(lambda drive: f"/{drive[1].lower()}:", path)
    return serialized(f"file://{found['host'] or ''}{path}")


def without_dots(path: str) -> str:
    """A path without the segments `.` and `..`."""
    if "/." not in path:
        return path
    kept: list[str] = []
    segments = path.split("/")[1:]
    for segment in segments:
        if segment == "..":
            del kept[-1:]
        elif segment != ".":
            kept.append(segment)
    return "/" + "/".join(kept) + ("/" if segments[-1] in (".", "..") and kept else "")


def is_address(uri: str) -> bool:
    """Whether a text is an address, as the server asks of a document's."""
    return "\0" not in uri and href(uri) is not None


def below(root: str, uri: str) -> Optional[str]:
    """The rest of an address below another, or None where it isn't below; both in the one
    spelling."""
    root = root.removesuffix("/") + "/"
    return uri[len(root) :] if uri.startswith(root) else None


def address_of(path: str) -> Optional[str]:
    """The address of a file or a folder by its absolute path, on this system or on Windows; None of
    other texts."""
    plain = path.replace("\\", "/")
    if not plain.startswith("/") and not WINDOWS.match(plain):
        return None
    quoted = quote(plain.encode("utf-8", "surrogatepass"), safe=KEPT)
    begin = "file:" if path.startswith("\\\\") else "file://"
    return spelled(f"{begin}{'' if plain.startswith('/') else '/'}{quoted}")


def folder_address(text: str) -> str:
    """The address of a folder, by that or by its absolute path: in the one spelling, and without a
    slash at its end but for that of the top."""
    uri = spelled(address_of(text) or text)
    return uri if uri.endswith("//") or not uri.endswith("/") else uri[:-1]


def serialized(uri: str) -> str:
    """The text by which the server knows the document of an address; what is no address stays."""
    return href(uri) or uri


def root_of(given: str) -> str:
    """The address of a root that is given by that, or as a folder."""
    is_folder = not is_address(given) and address_of(given) is None
    return folder_address(os.path.abspath(given) if is_folder else given)


def is_like(uri: str, root: str, glob: str) -> bool:
    """Whether a document's address, or its path from the root on, is like a pattern."""
    path = unquote(below(root, uri) or uri)
    return any(fnmatch.fnmatchcase(text, glob) for text in (path, uri))
