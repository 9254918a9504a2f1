"""What a way to index is given of a folder."""

from typing import Callable, NamedTuple, Optional, Sequence

from codenav.index.packages import Package
from codenav.outcome import Notes
from codenav.progress import Shows


class Limits(NamedTuple):
    """For so many seconds a server may say nothing while it's asked, and so many it may take in all;
    it may take so many megabytes of memory, and is asked so many questions at a time, in so many
    processes."""

    patience: float = 60.0
    seconds: float = 3600.0
    megabytes: int = 8192
    window: int = 64
    jobs: int = 1


class Document(NamedTuple):
    """A file of the folder: its address, its language by the protocol, and its text."""

    uri: str
    language: str
    text: str


class Given(NamedTuple):
    """A folder by its real path, its package where that's known, its documents of one language, the
    names of packages that the code navigation server has, the limits, a folder for files that go
    with the call, who notes what is left out and what is to be minded, and who says how far it is.
    """

    folder: str
    own: Optional[Package]
    documents: list[Document]
    on_server: Sequence[str]
    limits: Limits
    work: str
    notes: Notes
    mind: Callable[[str], None]
    shows: Shows
