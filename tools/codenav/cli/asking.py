"""The options of the words that ask: which server, where documents and tags files are on this
machine, and which texts were indexed."""

import argparse
from typing import Optional

from codenav.asking.tags import folders_of
from codenav.names import server_of
from codenav.settings.found import Settings
from codenav.texts.places import maps_of


class Asking:
    """What such a word is told. (A dataclass takes longer to load.)"""

    url = ""
    map: list[str] = []
    tags: list[str] = []
    revision: list[str] = []
    indexed: Optional[str] = None
    by_name = False

    def settings(self, url: str, project: str, folder: str) -> Settings:
        """What the call says, of files in a folder; server and project may be empty. Raises
        BadCall."""
        return Settings(
            url and server_of(url),
            project,
            folder,
            maps_of(self.map),
            folders_of(self.tags),
            tuple(self.revision),
            self.indexed,
        )


def add_asking(parser: argparse.ArgumentParser, without_tags: str = "") -> None:
    """Adds the options, with what is said of a call without --tags."""
    for name, value, text in (
        ("--map", "URI=FOLDER", "documents below URI are the files of FOLDER"),
        ("--tags", "PROJECT=FOLDER", f"the tags file of PROJECT was made in FOLDER{without_tags}"),
        (
            "--revision",
            "REV",
            "the git revision that was indexed: positions are mapped between its texts and today's; PROJECT=REV for another project",
        ),
    ):
        parser.add_argument(name, action="append", metavar=value, help=text)
    parser.add_argument(
        "--indexed",
        metavar="FOLDER",
        help="a folder that has the texts which were indexed, where they're in no git",
    )


def add_by_name(parser: argparse.ArgumentParser) -> None:
    """Adds the option by which definitions are looked for among tags."""
    parser.add_argument(
        "--by-name",
        action="store_true",
        help="find definitions by name, among the tags of the project, also where it has a dump",
    )
