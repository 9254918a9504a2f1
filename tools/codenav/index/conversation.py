"""A language server that is asked many things at once: waited for, and started again where it ends
or hangs. What it leaves unanswered is told, with the reason."""

import re
import threading
import time
from typing import Any, BinaryIO, Iterable, Iterator, Optional

from codenav.addresses import spelled
from codenav.faults import BadCall
from codenav.index.capabilities import CAPABILITIES
from codenav.index.given import Given
from codenav.index.languages import DIAGNOSTICS, HIGHLIGHTS, STATUS, ServerKind
from codenav.index.process import Lost, Process
from codenav.index.questions import Answer, Job, Question, Work
from codenav.lsp.jsonrpc import Message
from codenav.texts.places import uri_of

AGAIN = (-32801, -32802)
"""The errors ContentModified and ServerCancelled: the question is asked again."""
MOST_AGAIN, MOST_IN_VAIN = 20, 8
STEP_SECONDS = 0.2
ERROR = 1
SAID, MOST_SAID = ("window/logMessage", "window/showMessage"), 300
STARTING = 4
"""So many times longer than else a server may say nothing at its start."""
FIXES = re.compile(r" \(fix(?:es)? available\)$", re.MULTILINE)
"""What clangd says behind an error or doesn't, by what else is open."""
DATE = re.compile(r"^[\d/]+ [\d:]+ ")
READY = "ready"
"""The question by which ccls is asked whether it's ready."""


class Conversation:
    """A language server over a folder, with the documents that are open. It's of use in a `with`,
    at whose end nothing of it runs."""

    def __init__(
        self,
        kind: ServerKind,
        given: Given,
        settings: dict[str, Any],
        log: BinaryIO,
    ) -> None:
        self.kind, self.given, self.settings = kind, given, settings
        self.limits, self.log = given.limits, log
        self.opened: dict[str, dict[str, Any]] = {}
        self.errors: dict[str, list[str]] = {}
        self.offers: dict[str, Any] = {}
        self.read, self.active, self.is_quiet = set[str](), set[str](), False
        self.info: Any = None
        self.shown: dict[str, list[Any]] = {}
        self.fault = ""
        self.number = self.restarts = self.vain = 0
        self.dead, self.end = "", time.monotonic() + self.limits.seconds
        self.process: Optional[Process] = None
        self.lock, self.is_over = threading.Lock(), False

    def __enter__(self) -> "Conversation":
        try:
            self.start()
        except BaseException:
            self.stop()
            raise
        return self

    def __exit__(self, *_: object) -> None:
        with self.lock:
            self.is_over = True
        self.stop()

    def stop(self) -> None:
        """Ends the process."""
        if self.process is not None:
            self.process.stop()
            self.process = None

    @property
    def running(self) -> Process:
        """The process. Raises Lost where there's none."""
        if self.process is None:
            raise Lost("the server doesn't run")
        return self.process

    def start(self) -> None:
        """Starts the process, and opens again what was open. Raises BadCall where it doesn't answer."""
        self.read, self.active, self.is_quiet, self.info = set(), set(), False, None
        with self.lock:
            if self.is_over:
                raise BadCall("it's over")
            self.process = Process(self.kind.line, self.given, self.log)
        uri = uri_of(self.given.folder, [])
        self.process.send(
            id=0,
            method="initialize",
            params={
                "processId": None,
                "rootUri": uri,
                "capabilities": CAPABILITIES,
                "workspaceFolders": [{"uri": uri, "name": "folder"}],
                "initializationOptions": self.settings,
            },
        )
        try:
            patience = STARTING * self.limits.patience
            while (message := self.process.next(patience)) is not None:
                if message.get("id") == 0 and "method" not in message:
                    break
                self.heard(message)
        except Lost as lost:
            raise BadCall(f"{self.kind.line}: {lost}, before it was asked anything") from None
        result = message.get("result") if message else None
        if not isinstance(result, dict) or not isinstance(result.get("capabilities"), dict):
            raise BadCall(f"{self.kind.line}: it doesn't answer as a language server does")
        self.offers = result["capabilities"]
        self.process.send(method="initialized", params={})
        for document in self.opened.values():
            self.process.send(method="textDocument/didOpen", params={"textDocument": document})

    def open(self, uri: str, language: str, text: str) -> None:
        """Opens a document."""
        self.opened[uri] = {"uri": uri, "languageId": language, "version": 1, "text": text}
        params = {"textDocument": self.opened[uri]}
        if self.process is not None:
            self.process.send(method="textDocument/didOpen", params=params)

    def close(self, uri: str) -> None:
        """Closes a document."""
        del self.opened[uri]
        if self.process is not None:
            params = {"textDocument": {"uri": uri}}
            self.process.send(method="textDocument/didClose", params=params)

    def heard(self, message: Message) -> None:
        """Takes what the server says of itself, and answers what it asks."""
        method, params = message.get("method"), message.get("params")
        params = params if isinstance(params, dict) else {}
        uri = spelled(str(params.get("uri")))
        if method == (self.kind.sign or DIAGNOSTICS):
            self.read.add(uri)
        if method == "$/progress" and isinstance(params.get("value"), dict):
            is_end = params["value"].get("kind") == "end"
            (self.active.discard if is_end else self.active.add)(str(params.get("token")))
        elif method == DIAGNOSTICS:
            found = [one for one in params.get("diagnostics", ()) if isinstance(one, dict)]
            self.errors[uri] = [
                " ".join(FIXES.sub("", str(one.get("message"))).split())
                for one in found
                if one.get("severity", ERROR) == ERROR
            ]
        elif method in SAID and params.get("type") == ERROR:
            text = DATE.sub("", " ".join(str(params.get("message")).split()))
            self.fault = self.fault or text[:MOST_SAID]
        elif method == STATUS:
            self.is_quiet = params.get("quiescent") is True
        elif method == HIGHLIGHTS:
            symbols = [one for one in params.get("symbols", ()) if isinstance(one, dict)]
            self.shown[uri] = [span for one in symbols for span in one.get("lsRanges", ())]
        elif method == "client/registerCapability":
            for one in params.get("registrations", ()):
                if isinstance(one, dict) and one.get("method") == "textDocument/semanticTokens":
                    self.offers["semanticTokensProvider"] = one.get("registerOptions")
        if (
            message.get("id") == READY
            and method is None
            and isinstance(message.get("result"), dict)
        ):
            counts = {**(message["result"].get("pipeline") or {})}
            is_idle = counts.pop("lastIdle", None) == counts.get("completed")
            known = counts, message["result"].get(
                "db"
            )  # now and then it doesn't say that it's idle
            is_done = counts.get("enqueued") == counts.get("completed")
            self.is_quiet, self.info = is_done and (is_idle or known == self.info), known
        if "id" in message and method is not None:
            items = params.get("items", ()) if method == "workspace/configuration" else ()
            result = [self.settings for _ in items] if items else None
            self.running.send(id=message["id"], result=result)

    def is_ready(self, silent: float) -> bool:
        """Whether the server, silent for so many seconds, has read what is open."""
        is_read = self.opened.keys() <= self.read
        if self.kind.sign == HIGHLIGHTS:
            return is_read and self.is_quiet  # the end of its progress it says only when it's asked
        if self.kind.sign == STATUS:
            is_read = self.is_quiet
        if not self.kind.sign:
            is_read = silent > self.kind.silence or (is_read and bool(self.opened))
        return is_read and not self.active

    def settle(self) -> bool:
        """Waits until the server has read what is open; says whether it came to that."""
        heard, longest = time.monotonic(), max(self.limits.patience, 2 * self.kind.silence)
        try:
            while not self.is_ready(time.monotonic() - heard):
                message = self.running.next(STEP_SECONDS)
                if message is not None:
                    self.heard(message)
                    heard = time.monotonic() if "method" in message else heard
                elif self.kind.sign == HIGHLIGHTS:
                    self.running.send(id=READY, method="$ccls/info", params={})
                if time.monotonic() > min(heard + longest, self.end):
                    return False
        except Lost:
            return False
        return True

    def answers(self, questions: Iterable[Question]) -> Iterator[Answer]:
        """Asks all, many at a time. After an end or a hang those under way are asked one by one."""
        work = Work(questions)
        while not self.dead and (work.rest or work.careful or work.flying):
            try:
                while (job := work.next(self.limits.window)) is not None:
                    self.ask(work, job)
                message = self.running.next(min(self.limits.patience, self.end - time.monotonic()))
                if message is None:
                    raise Lost(f"the server said nothing for {self.limits.patience:g} s")
                yield from self.taken(work, message)
            except Lost as lost:
                yield from work.lost(str(lost))
                self.restart(str(lost))
        for job in work.all():
            yield job.answer(None, self.dead)

    def ask(self, work: Work, job: Job) -> None:
        """Sends a question."""
        self.number += 1
        work.flying[self.number] = job
        _, method, params = job.question
        self.running.send(id=self.number, method=method, params=params)

    def taken(self, work: Work, message: Message) -> Iterator[Answer]:
        """The answer that a message is; none where it's something else, or a question's that isn't
        under way any more."""
        if "method" in message:
            self.heard(message)
            return
        job = work.flying.pop(message["id"], None) if "id" in message else None
        if job is None:
            return
        error = message.get("error")
        code = error.get("code") if isinstance(error, dict) else None
        if code in AGAIN and job.again < MOST_AGAIN:
            job.again += 1
            work.careful.append(job)
            return
        self.vain = 0
        said = error.get("message") if isinstance(error, dict) else error
        yield job.answer(message.get("result"), f"error {code}: {said}" if error else "")

    def restart(self, why: str) -> None:
        """Starts the server again, unless the time is over or that was done often in vain."""
        self.stop()
        self.restarts, self.vain = self.restarts + 1, self.vain + 1
        if time.monotonic() > self.end:
            self.dead = f"not answered within {self.limits.seconds:g} s"
        elif self.vain > MOST_IN_VAIN:
            self.dead = f"{why}, {self.vain} times without an answer between"
        else:
            try:
                self.start()
                self.settle()
            except BadCall as fault:
                self.dead = str(fault)
