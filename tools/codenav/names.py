"""The address of a server, and the names of projects, sets and keys."""

import re
from urllib.parse import urlsplit

from codenav.faults import BadCall

PROJECT = re.compile(r"[a-z0-9_-]{1,64}")
SET = re.compile(r"[a-z0-9_-]{1,47}")
KEY = re.compile(r"[A-Za-z0-9_-]{1,64}")
BRANCH, PARTS = "--", "-parts"
PART = re.compile(r"(?P<set>[a-z0-9_-]{1,47})-(?P<turn>[0-9a-f]{4})[0-9a-f]{12}")


def server_of(url: str) -> str:
    """The address of a server, without a slash at its end."""
    try:
        parts = urlsplit(url)
        is_server = (
            parts.scheme in ("http", "https")
            and all(0 < len(label) < 64 for label in labels_of(parts.hostname or ""))
            and parts.port != 0
        )
    except ValueError:
        is_server = False
    if not is_server or parts.query or parts.fragment or not re.fullmatch(r"[!-~]+", url):
        raise BadCall(f"not the address of a server, as http://127.0.0.1:8080: {url!r}")
    return url.rstrip("/")


def labels_of(host: str) -> list[str]:
    """The parts of a name of the Domain Name System, where a dot may end it; none is empty or
    longer than 63 characters (RFC 1035)."""
    return host.removesuffix(".").split(".")


def project_of(text: str) -> str:
    """The text, where it's the name of a project."""
    if not PROJECT.fullmatch(text):
        raise BadCall(f"a project is 1 to 64 characters of a-z 0-9 _ -, not {text!r}")
    return text


def own_project(text: str) -> str:
    """The text, where it's the name of a project that isn't the manifest of a set, which no tool
    writes or removes by its name."""
    if text.endswith(PARTS):
        raise BadCall(f"{text!r} is the name of the manifest of a set, of {text[: -len(PARTS)]!r}")
    return project_of(text)


def new_project(text: str) -> str:
    """The text, where it's such a name, and not that of a part of a set either, which isn't shown by
    itself and goes with its set."""
    if PART.fullmatch(text):
        raise BadCall(f"{text!r} is the name of a part of a set")
    return own_project(text)


def key_of(text: str) -> str:
    """The text, where it's a key."""
    if not KEY.fullmatch(text):
        raise BadCall(f"a key is 1 to 64 characters of A-Z a-z 0-9 _ -, not {text!r}")
    return text


def set_name(text: str) -> str:
    """The name that a set has on the server: `NAME@BRANCH`, another revision beside the set NAME,
    is `NAME--BRANCH` there, which is no other set's name. Raises BadCall."""
    names = text.split("@")
    name = BRANCH.join(names)
    is_one = len(names) < 3 and all(names) and BRANCH not in text and "-@" not in text
    if not is_one or "@-" in text or SET.fullmatch(name) is None or name.endswith(PARTS):
        raise BadCall(
            f"a set is 1 to 47 characters of a-z 0-9 _ -, or NAME@BRANCH, without {BRANCH} and not with {PARTS} at its end, not {text!r}"
        )
    if PART.fullmatch(name):
        raise BadCall(f"{text!r} is the name of a part of a set")
    return name


def stored_name(text: str) -> str:
    """The name that a project or a set has on the server. Raises BadCall."""
    return set_name(text) if "@" in text else project_of(text)


def shown_name(name: str) -> str:
    """The name of a set as its users write it."""
    base, between, branch = name.partition(BRANCH)
    return f"{base}@{branch}" if base and between and branch else name


def base_name(name: str) -> str:
    """The set that a set is another revision of, or its own name."""
    return shown_name(name).partition("@")[0]
