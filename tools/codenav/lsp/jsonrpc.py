"""Messages of JSON-RPC 2.0, each behind the head that the Language Server Protocol 3.17 gives it
("Base Protocol")."""

import json
import os
import re
import threading
from queue import SimpleQueue
from typing import Any, BinaryIO, Callable, Optional, Union

PARSE_ERROR = -32700
INVALID_REQUEST = -32600
METHOD_NOT_FOUND = -32601
INVALID_PARAMS = -32602
INTERNAL_ERROR = -32603
NOT_INITIALIZED = -32002
CONTENT_MODIFIED = -32801
CANCELLED = -32800

LENGTH = re.compile(rb"content-length:[ \t]*([0-9]{1,9})[ \t]*", re.IGNORECASE)

Message = dict[str, Any]


class Fault(Exception):
    """A message that is answered by an error: the error's code, what is wrong, and the id of the
    request, where it can be known."""

    def __init__(self, code: int, text: str, own: Union[int, str, None] = None) -> None:
        super().__init__(text)
        self.code = code
        self.own = own


def read_body(source: BinaryIO) -> Optional[bytes]:
    """The next message's content; None at the end of the input. Raises Fault where the head doesn't
    say how long it is."""
    length = None
    while line := source.readline():
        if line in (b"\r\n", b"\n"):
            if length is None:
                raise Fault(PARSE_ERROR, "no Content-Length")
            body = source.read(length)
            return body if len(body) == length else None
        found = LENGTH.fullmatch(line.rstrip(b"\r\n"))
        length = int(found[1]) if found else length
    return None


def message_of(body: bytes) -> Message:
    """The request, the notification or the response that a content is; raises Fault where it's
    none."""
    try:
        message = json.loads(body)
    except (ValueError, RecursionError):
        raise Fault(PARSE_ERROR, "not JSON") from None
    if not isinstance(message, dict):
        raise Fault(INVALID_REQUEST, "not an object")
    own = message.get("id")
    if "id" in message and type(own) not in (int, str):
        raise Fault(INVALID_REQUEST, "an id is a number or a text")
    if message.get("jsonrpc") != "2.0":
        raise Fault(INVALID_REQUEST, "not JSON-RPC 2.0", own)
    if "method" not in message and ("result" in message or "error" in message):
        return message
    if not isinstance(message.get("method"), str):
        raise Fault(INVALID_REQUEST, "no method", own)
    if "id" in message and not isinstance(message.get("params"), (dict, list, type(None))):
        raise Fault(INVALID_REQUEST, "parameters are an object or an array", own)
    return message


def member(value: Any, path: str, kind: type) -> Any:
    """What a path of names, separated by dots, leads to in parameters; raises Fault where that
    isn't there or isn't of the kind."""
    for name in path.split("."):
        value = value.get(name) if isinstance(value, dict) else None
    if type(value) is not kind:
        raise Fault(INVALID_PARAMS, f"no {path}")
    return value


def is_exit(message: Message) -> bool:
    """Whether this is the notification that ends the server."""
    return message.get("method") == "exit" and "id" not in message


class Inbox:
    """The messages that come, in order. They're read ahead, so that an editor never waits to send
    one."""

    def __init__(self, source: BinaryIO, log: Callable[[str, bytes], None]) -> None:
        self.source = source
        self.log = log
        self.messages: SimpleQueue[Union[Message, Fault, None]] = SimpleQueue()
        threading.Thread(target=self.fill, daemon=True).start()

    def fill(self) -> None:
        """Reads up to the end of the input, or to what can't be read, or the notification `exit`."""
        try:
            self.read()
        finally:
            self.messages.put(None)

    def read(self) -> None:
        """Reads the messages."""
        while True:
            try:
                body = read_body(self.source)
                if body is None:
                    return None
                self.log("<-", body)
                message = message_of(body)
            except Fault as fault:
                self.messages.put(fault)
                continue
            self.messages.put(message)
            if is_exit(message):
                return None

    def next(self) -> Optional[Message]:
        """The next message; None at the end of the input. Raises Fault for one that is answered by
        an error."""
        message = self.messages.get()
        if isinstance(message, Fault):
            raise message
        return message


def write_message(out: BinaryIO, body: bytes) -> None:
    """Writes a message with its head."""
    out.write(b"Content-Length: %d\r\n\r\n%s" % (len(body), body))
    out.flush()


def logger(path: Optional[str], say: Callable[[str], None]) -> Callable[[str, bytes], None]:
    """What writes the traffic to a file, one message a line, or nowhere. That the file can't be
    written any more is said once."""
    file = open(os.devnull if path is None else path, "wb", buffering=0)
    faults: list[OSError] = []

    def log(way: str, body: bytes) -> None:
        line = b"%s %s\n" % (way.encode(), body.replace(b"\r", b" ").replace(b"\n", b" "))
        try:
            file.write(line)
        except OSError as fault:
            if not faults:
                say(f"{path}: {fault.strerror}")
            faults[:] = [fault]

    return log
