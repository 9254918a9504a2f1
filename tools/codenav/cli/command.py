"""A word of `codenav`: how its call is read into a record, and what it does."""

import argparse
import sys
from typing import Any, Callable, Generic, NamedTuple, NoReturn, Optional, Sequence, TypeVar, cast

from codenav.cli.ends import status_of
from codenav.cli.options import Help, with_server
from codenav.printed import line

Call = TypeVar("Call")


class Parser(argparse.ArgumentParser):
    """Says in one line what is wrong with a call."""

    def error(self, message: str) -> NoReturn:
        """Ends the process with status 2."""
        word = " ".join(self.prog.split()[:2])
        self.exit(2, f"{word}: {line(message)}; {word} --help says how it's called\n")


class Command(NamedTuple, Generic[Call]):
    """`record` has the defaults of all options; `add` adds them to a parser, without defaults, and
    `run` answers the status: 0, or 1 for what its help says. (A dataclass takes `ask` longer to
    load.)"""

    word: str
    text: str
    record: Callable[[], Call]
    add: Callable[[argparse.ArgumentParser], None]
    run: Callable[[Call], int]
    epilog: str = ""
    usage: Optional[str] = None
    names_server: bool = False  # the first word is the address of a server
    is_mixed: bool = False  # options may stand between the words
    filled: Optional[Callable[[argparse.ArgumentParser, list[str]], list[str]]] = None

    def parser(self) -> argparse.ArgumentParser:
        """What a call may be."""
        parser = Parser(
            f"codenav {self.word}",
            usage=self.usage,
            description=self.text,
            epilog=self.epilog or None,
            argument_default=argparse.SUPPRESS,
            formatter_class=Help,
        )
        self.add(parser)
        return parser

    def read(self, words: Sequence[str]) -> Call:
        """The call that words make; ends the process with status 2 where they make none."""
        parser = self.parser()
        given = self.filled(parser, list(words)) if self.filled else list(words)
        given = with_server(parser, given) if self.names_server else given
        call: Any = self.record()
        parse: Any = parser.parse_intermixed_args if self.is_mixed else parser.parse_args
        parse(given, namespace=call)
        return cast(Call, call)

    def main(self, words: Optional[Sequence[str]] = None) -> int:
        """Reads a call, makes it, and answers its status."""
        call = self.read(sys.argv[1:] if words is None else words)
        return status_of(f"codenav {self.word}", lambda: self.run(call))
