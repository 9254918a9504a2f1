"""The text that the URL Standard (https://url.spec.whatwg.org) makes of an address: what its basic
parser reads without a base, serialized. The server knows documents by it.

A host with characters beyond ASCII is mapped by NFKC and lower case, which is nearly the mapping of
UTS #46, and the labels aren't checked.
"""

import ipaddress
import re
import unicodedata
from stringprep import in_table_b1
from typing import Callable, Optional

PORTS = {"ftp": "21", "file": "", "http": "80", "https": "443", "ws": "80", "wss": "443"}
"""The special schemes, and their default ports."""
C0_OR_SPACE = "".join(map(chr, range(0x21)))
UNSEEN = re.compile("[\t\n\r]")
SCHEME = re.compile(r"([A-Za-z][A-Za-z0-9+.-]*):")
SAME = re.compile(r"file://(?:/(?!\.{1,2}(?:/|$))(?:[A-Za-z0-9!$&'()*+,:;=@_~.-]|%(?!2[Ee]))*)+")
"""Addresses of which the standard makes the same text, as nearly all are."""
DRIVE = re.compile("[A-Za-z][:|]")
SINGLE_DOT, DOUBLE_DOT = (".", "%2e"), ("..", ".%2e", "%2e.", "%2e%2e")
MOST_DOTS = len("%2e%2e")
MOST_DOMAIN = 253
"""Characters of a domain that isn't ASCII, of which Punycode takes long where they are many."""
FORBIDDEN_HOST = re.compile("[\0\t\n\r #/:<>?@\\[\\\\\\]^|]")
FORBIDDEN_DOMAIN = re.compile("[\0-\x20#%/:<>?@\\[\\\\\\]^|\x7f]")
NUMBER = re.compile("[0-9]+|0[Xx][0-9A-Fa-f]*")


def encoded(more: str) -> Callable[[str], str]:
    """What percent-encodes the C0 control set and further characters."""
    runs = re.compile(f"(?:[^ -~]|[{re.escape(more)}])+" if more else "[^ -~]+")
    return lambda text: runs.sub(lambda run: "%" + run[0].encode().hex("%").upper(), text)


in_opaque = encoded("")
in_fragment = encoded(' "<>`')
in_query = encoded(' "#<>')
in_special_query = encoded(" \"#<>'")
in_path = encoded(' "#<>?^`{}')
in_userinfo = encoded(' "#<>?^`{}/:;=@[\\]|')


def href(address: str) -> Optional[str]:
    """The text that the standard makes of an address; None where its parser fails."""
    if SAME.fullmatch(address):
        return address
    address = address.encode("utf-16", "surrogatepass").decode("utf-16", "replace")
    address = UNSEEN.sub("", address.strip(C0_OR_SPACE))
    found = SCHEME.match(address)
    if found is None:
        return None
    scheme, rest = found[1].lower(), address[found.end() :]
    rest, hash_mark, fragment = rest.partition("#")
    rest, mark, query = rest.partition("?")
    if rest.endswith(" ") and (mark or hash_mark) and is_opaque(scheme, rest):
        rest = rest[:-1] + "%20"
    query = (in_special_query if scheme in PORTS else in_query)(query)
    try:
        return (
            f"{scheme}:{before_query(scheme, rest)}{mark}{query}{hash_mark}{in_fragment(fragment)}"
        )
    except ValueError:
        return None


def is_opaque(scheme: str, rest: str) -> bool:
    """Whether an address has a path that isn't cut into segments."""
    return scheme not in PORTS and not rest.startswith("/")


def before_query(scheme: str, rest: str) -> str:
    """What the standard makes of an address between its scheme and its query."""
    if is_opaque(scheme, rest):
        return in_opaque(rest)
    if scheme in PORTS:
        rest = rest.replace("\\", "/")
    if scheme == "file":
        return file_part(rest)
    if scheme in PORTS:
        authority, slash, path = rest.lstrip("/").partition("/")
    elif rest.startswith("//"):
        authority, slash, path = rest[2:].partition("/")
    else:
        joined = path_of(scheme, rest[1:])
        return f"/.{joined}" if joined.startswith("//") else joined
    is_empty = not slash and scheme not in PORTS
    return f"//{authority_of(scheme, authority)}{'' if is_empty else path_of(scheme, path)}"


def file_part(rest: str) -> str:
    """The same of the address of a file (the states `file`, `file slash` and `file host`)."""
    host, path = "", rest.removeprefix("/")
    if rest.startswith("//"):
        host, slash, path = rest[2:].partition("/")
        if DRIVE.fullmatch(host):
            host, path = "", host + slash + path
        elif host:
            host = host_of(host)
    return f"//{'' if host == 'localhost' else host}{path_of('file', path)}"


def path_of(scheme: str, text: str) -> str:
    """A path, of the text behind its first slash (the state `path`)."""
    path: list[str] = []
    segments = text.split("/")
    for number, segment in enumerate(segments, 1):
        is_last = number == len(segments)
        dots = segment.lower() if len(segment) <= MOST_DOTS else ""
        if dots in DOUBLE_DOT:
            is_drive = scheme == "file" and len(path) == 1 and DRIVE.fullmatch(path[0])
            if not is_drive:
                del path[-1:]
            path += [""] * is_last
        elif dots in SINGLE_DOT:
            path += [""] * is_last
        else:
            if scheme == "file" and not path and DRIVE.fullmatch(segment):
                segment = f"{segment[0]}:"
            path.append(in_path(segment))
    return "/" + "/".join(path)


def authority_of(scheme: str, text: str) -> str:
    """An authority: a login, a host and a port (the states `authority` to `port`)."""
    login, mark, text = text.rpartition("@")
    user, _, password = login.replace("@", "%40").partition(":")
    found = re.fullmatch(r"((?:\[[^\]]*(?:\]|$)|[^:\[])*)(?::([0-9]*))?", text)
    if found is None or not found[1] and (scheme in PORTS or mark or found[2] is not None):
        raise ValueError
    port = str(int(found[2])) if found[2] else ""
    if port and int(port) > 65535:
        raise ValueError
    password = f":{in_userinfo(password)}" if password else ""
    user = in_userinfo(user)
    host = host_of(found[1]) if scheme in PORTS else opaque_host(found[1])
    return (
        (f"{user}{password}@" if user or password else "")
        + host
        + (f":{port}" if port and port != PORTS.get(scheme) else "")
    )


def opaque_host(text: str) -> str:
    """The host of an address whose scheme isn't special."""
    if text.startswith("["):
        return ipv6(text)
    if FORBIDDEN_HOST.search(text):
        raise ValueError
    return in_opaque(text)


def host_of(text: str) -> str:
    """The host of an address of a special scheme."""
    if text.startswith("["):
        return ipv6(text)
    plain = re.sub(
        rb"%([0-9A-Fa-f]{2})", lambda digits: bytes.fromhex(digits[1].decode()), text.encode()
    )
    domain = domain_of(plain.decode("utf-8", "replace"))
    if not domain or FORBIDDEN_DOMAIN.search(domain):
        raise ValueError
    parts = domain.split(".")
    if len(parts) > 1 and not parts[-1]:
        del parts[-1]
    return ipv4(parts) if NUMBER.fullmatch(parts[-1]) else domain


def domain_of(text: str) -> str:
    """A domain in ASCII."""
    if text.isascii():
        return text.lower()
    lower = "".join(c.lower() for c in unicodedata.normalize("NFKC", text))
    mapped = unicodedata.normalize("NFKC", lower)
    kept = "".join(c for c in mapped if not in_table_b1(c))
    if "\ufffd" in kept or len(kept) > MOST_DOMAIN:
        raise ValueError
    return ".".join(
        label if label.isascii() else "xn--" + label.encode("punycode").decode()
        for label in kept.replace("\u3002", ".").split(".")
    )


def ipv4(parts: list[str]) -> str:
    """An address of IPv4, whose parts may be octal or hexadecimal."""
    if len(parts) > 4 or not all(map(NUMBER.fullmatch, parts)):
        raise ValueError
    numbers = [number_of(part.lower()) for part in parts]
    room = 256 ** (5 - len(numbers))
    if any(number > 255 for number in numbers[:-1]) or numbers[-1] >= room:
        raise ValueError
    whole = sum(number << (24 - 8 * place) for place, number in enumerate(numbers[:-1]))
    return str(ipaddress.IPv4Address(whole + numbers[-1]))


def number_of(text: str) -> int:
    """A number of an IPv4 address."""
    if text.startswith("0x"):
        return int(text[2:] or "0", 16)
    return int(text, 8 if text.startswith("0") else 10)


def ipv6(text: str) -> str:
    """An address of IPv6 in brackets, without the first of its longest runs of zeros."""
    inside = text[1:-1]
    if not text.endswith("]") or "%" in inside:
        raise ValueError
    pieces = [f"{int(piece, 16):x}" for piece in ipaddress.IPv6Address(inside).exploded.split(":")]
    runs = re.finditer(r"(?:(?<=:)|^)0(?::0)+(?=:|$)", ":".join(pieces))
    longest = max(runs, key=lambda run: len(run[0]), default=None)
    if longest is None:
        return f"[{':'.join(pieces)}]"
    joined = longest.string
    return f"[{joined[: longest.start()].rstrip(':')}::{joined[longest.end() :].lstrip(':')}]"
