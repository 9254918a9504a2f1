"""What is shown of a folder: the files of today, or those of a git revision, and how their places
and those of the index lead to one another."""

import os
import re
import threading
from contextlib import contextmanager, suppress
from typing import Iterator, Optional

from codenav.asking.project import Reply
from codenav.asking.workspace import Workspace
from codenav.browse.folder import MOST_BYTES, Folder, Gone, Refused
from codenav.faults import BadCall, NoFile, NoReply
from codenav.settings.found import Settings
from codenav.texts.decoded import Text, Texts
from codenav.texts.git import found_in, top_of
from codenav.texts.moved.text_map import TextMap
from codenav.texts.moved.tokens import tokens_of
from codenav.texts.places import Place
from codenav.texts.revisions import Checkout

WORD = re.compile(r"\w+")
TODAY = "Without ?revision= in the address the page is that of today's file."


class View:
    """The texts of a folder, of today or of a revision, and what asks the index at their places;
    `below` is the folder in it whose project is asked, and with `is_alone` no settings count that
    the files have.

    Git's processes answer one at a time, so whoever asks a view holds its lock.
    """

    def __init__(
        self,
        folder: Folder,
        settings: Settings,
        revision: str = "",
        is_by_name: bool = False,
        below: str = "",
        is_alone: bool = False,
    ) -> None:
        self.folder, self.settings, self.revision = folder, settings, revision
        self.checkout = Checkout(revision) if revision else None
        self.notes: list[str] = []
        self.lock, self.texts = threading.RLock(), Texts(self.read)
        self.workspace = Workspace(
            os.path.join(folder.given, below) if below else folder.given,
            settings,
            self.notes.append,
            self.today,
            is_by_name,
            is_alone,
        )

    def end(self) -> None:
        """Ends what reads texts, when nobody asks any more."""
        with self.lock:
            if self.checkout:
                self.checkout.end()
            for today in self.workspace.mapping.values():
                today.end()

    @contextmanager
    def answering(self) -> Iterator[None]:
        """Holds the lock for an answer, in which a file is read once, and a revision that git
        doesn't know is looked up once."""
        with self.lock:
            self.texts.clear()
            if self.checkout:
                self.checkout.faults.clear()
            yield

    def text(self, path: str) -> str:
        """The text of a file, by its whole path; raises Refused."""
        return self.texts.text(path)

    def read(self, path: str) -> Text:
        """Reads a file; raises Refused."""
        if self.checkout is None:
            return Text(self.folder.text(path))
        try:
            text = self.checkout.text(path)
        except NoFile as fault:
            raise Gone(404, str(fault), TODAY) from None
        except BadCall as fault:
            raise Refused(404, str(fault), TODAY) from None
        if len(text) > MOST_BYTES:
            raise Refused(403, f"a file of over {MOST_BYTES} bytes")
        return Text(text)

    def today(self, path: str) -> str:
        """The text of a file, for maps. Raises BadCall where there is none."""
        try:
            return self.text(path)
        except Refused as fault:
            raise BadCall(f"{path}: {fault}") from None
        except OSError as fault:
            raise BadCall(f"{path}: {fault.strerror}") from None

    def lines(self, path: str) -> list[str]:
        """The lines of a file."""
        return self.texts.of(path).lines

    def word(self, at: Place) -> str:
        """The word at a place, or nothing."""
        text = self.texts.of(at.name)
        if at.line >= len(text.lines):
            return ""
        own = text.characters(at.line, at.character)
        found = WORD.finditer(text.lines[at.line])
        return next((one[0] for one in found if one.start() <= own < one.end()), "")

    def path(self, name: str) -> str:
        """The whole path of a file or folder; raises Refused. A file of a revision needs none of
        today."""
        return self.folder.path(name) if self.checkout is None else self.folder.named(name)

    def text_map(self, path: str) -> tuple[Optional[TextMap], str]:
        """The map from the indexed text of a file to the one that is shown, where that's known and
        not the same, and how the indexed text is called."""
        settings = self.workspace.settings(path) or self.settings
        with suppress(BadCall):
            project = self.workspace.project(settings, self.workspace.projects(settings, path)[0])
            with suppress(NoReply):
                project.learn(path, again=True)
            _, _, (_, found, _, label) = project.today.map_of(project.name, path)
            return (None, "") if found is None or found.is_same else (found, label)
        return None, ""

    def ask(self, what: str, at: Place) -> tuple[Reply, str]:
        """What is found at a place, and what is said of it besides. Raises NotThere and BadCall."""
        return self.workspace.ask(what, at), self.noted()

    def noted(self) -> str:
        """What was said since that was asked for last."""
        notes, self.notes[:] = "; ".join(self.notes), []
        return notes


def unknown_words(text_map: TextMap) -> Iterator[tuple[int, list[int]]]:
    """Of each line, from 0, the words that the indexed text doesn't have: two numbers for each,
    where it starts and how long it is."""
    lines = text_map.new.lines
    for number, line in enumerate(lines):
        old = text_map.new.matched.get(number)
        if old is not None and text_map.old.lines[old] == line:
            if text_map.backward(number, 0) is not None:
                continue
        words = [
            part
            for token in tokens_of(line, number)
            if token.is_word and text_map.backward(number, token.start) is None
            for part in (token.start, token.end - token.start)
        ]
        if words:
            yield number, words


def permalink(view: View, at: Place) -> tuple[str, int, int]:
    """The commit of today's HEAD, and where a place of a file is in it; raises Refused where it
    isn't there."""
    path, line, character = at
    top = top_of(os.path.dirname(os.path.realpath(path)))
    commit = (view.revision or found_in(top, "HEAD^{commit}")) if top else ""
    if not commit:
        raise Refused(404, "not in a checkout of git, so an address has no revision")
    checkout = Checkout(commit)
    try:
        text = checkout.text(path)
    except NoFile as fault:
        raise Gone(404, f"{fault}: commit it first") from None
    except BadCall as fault:
        raise Refused(404, str(fault)) from None
    finally:
        checkout.end()
    place = TextMap(text, view.text(path)).backward(line, character)
    if place is None:
        raise Refused(404, f"this place isn't in {commit[:12]}: commit it first")
    return commit, *place
