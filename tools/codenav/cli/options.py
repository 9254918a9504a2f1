"""What command lines have in common."""

import argparse
import os

from codenav.client.login import named


class Help(argparse.HelpFormatter):
    """Lays out help as argparse does, but keeps paragraphs apart, and those that are set in as they
    are. argparse loads `shutil` at each
    argument for the width of the terminal; that takes longer than a question."""

    def __init__(self, prog: str) -> None:
        try:
            columns = int(os.environ.get("COLUMNS") or 0) or os.get_terminal_size(1).columns
        except (OSError, ValueError):
            columns = 80
        super().__init__(prog, width=columns - 2)

    def _fill_text(self, text: str, width: int, indent: str) -> str:
        fill = super()._fill_text
        return "\n\n".join(
            part if part.startswith("  ") else fill(part, width, indent)
            for part in text.split("\n\n")
        )


URL_HELP = (
    "the server, as http://127.0.0.1:8080; may be left out where CODENAV_URL has it. CODENAV_TOKEN (a bearer token), "
    "CODENAV_USER (name:password) or ~/.netrc have the login that a proxy asks for"
)


def number(text: str) -> int:
    """A number of digits alone."""
    if not (text.isascii() and text.isdigit() and len(text) < 19):
        raise argparse.ArgumentTypeError(f"not a number: {text!r}")
    return int(text)


def add_words(parser: argparse.ArgumentParser, form: str, text: str) -> None:
    """Adds the words of a command line that aren't options, of which the first ones may be left
    out."""
    parser.add_argument("words", nargs="*", metavar=form, help=text)


def url_in(words: list[str], most: int = 2) -> tuple[str, list[str]]:
    """The address of a server that words begin with, or nothing, and the words behind it, of which
    there are so many at most."""
    has_url = bool(words) and ("://" in words[0] or len(words) > most)
    return (named(words[0]), words[1:]) if has_url else ("", words)


def named_all(text: str) -> list[str]:
    """The addresses of servers that an option has, separated by commas."""
    return [named(url) for url in text.split(",")]


def add_server(parser: argparse.ArgumentParser, is_optional: bool = False) -> None:
    """Adds the address of the server, the first word of a command line that isn't an option."""
    parser.add_argument(
        "url",
        metavar="URL",
        type=named,
        nargs="?" if is_optional else None,  # type: ignore[arg-type]
        help=URL_HELP,
    )


def add_retry(parser: argparse.ArgumentParser) -> None:
    """Adds the option by which a request is sent again."""
    parser.add_argument(
        "--retry",
        action="store_true",
        help="send again, up to five times in some six seconds, where the connection is refused or cut, no answer comes, or the "
        "server or a proxy can't answer now (429, 502, 503, 504)",
    )


def first_place(parser: argparse.ArgumentParser, words: list[str]) -> int:
    """Where the first word stands that is neither an option nor an option's value."""
    index = 0
    while index < len(words) and words[index].startswith("-"):
        if words[index] == "--":
            return index + 1
        takes_value = "=" not in words[index] and any(
            name.startswith(words[index]) and action.nargs is None
            for name, action in parser._option_string_actions.items()
        )
        index += 2 if takes_value else 1
    return min(index, len(words))


def with_server(parser: argparse.ArgumentParser, words: list[str]) -> list[str]:
    """The words of a call whose first word is the address of a server: that of CODENAV_URL where a
    name, which has neither `:` nor `/`, or nothing stands in its place."""
    url, at = os.environ.get("CODENAV_URL"), first_place(parser, words)
    if url and (at == len(words) or words[at] and not {*":/"} & {*words[at]}):
        return [*words[:at], url, *words[at:]]
    return words
