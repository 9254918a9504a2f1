"""`codenav rebalance`."""

import argparse
import os
import sys
from dataclasses import dataclass
from typing import Sequence

from codenav.cli.command import Command
from codenav.cli.options import URL_HELP, add_words, named_all, url_in
from codenav.cli.publish import servers_in
from codenav.cli.show import Shown
from codenav.faults import BadCall, NoReply
from codenav.names import server_of
from codenav.sets.publish.rebalance import Lists, Relocation, rebalance
from codenav.sets.ring import named_in_front, servers_of

TOOL = "codenav rebalance"


VALUES = {
    "--servers URL,URL..": "all servers that the front is to ask, spelled as in its configuration; without it `servers` of the settings of the folder of the call",
    "--servers-before URL,URL..": "the list of before, where a server that can be asked leaves it",
    "--switch COMMAND": "the line of a shell that switches the front; without it switch the front, and call again",
}


@dataclass(slots=True)
class RebalanceCall:
    """What `rebalance` is told."""

    servers: str = ""
    servers_before: str = ""
    servers_that_join: bool = False
    switch: str = ""
    words: Sequence[str] = ()


def add_rebalance(parser: argparse.ArgumentParser) -> None:
    """The words of `rebalance`."""
    for option, text in VALUES.items():
        name, metavar = option.split()
        parser.add_argument(name, metavar=metavar, help=text)
    parser.add_argument(
        "--servers-that-join",
        action="store_true",
        help="the surface of a set goes to those of the servers alone that have a set which imports or exports something of one of its packages",
    )
    add_words(
        parser, "[URL] FOLDER", f"{URL_HELP}. FOLDER is where `publish --keep` left sets, or above"
    )


def lists_of(call: RebalanceCall, url: str) -> Lists:
    """The lists of servers that a call names."""
    front, servers = server_of(url), servers_in(call.servers, os.curdir)
    if not servers:
        raise BadCall("it takes --servers, or `servers` in the settings")
    if named_in_front(front) in map(named_in_front, servers):
        raise BadCall(f"it asks the front which servers it asks: {front} is one of these")
    before = servers_of(named_all(call.servers_before)) if call.servers_before else []
    return Lists(front, servers, tuple(before), call.servers_that_join)


def run_rebalance(call: RebalanceCall) -> int:
    """Puts kept sets where they're to be; answers 2 where something can't be."""
    url, rest = url_in([*call.words], 1)
    if len(rest) != 1:
        raise BadCall("it takes [URL] FOLDER")
    lists = lists_of(call, url or os.environ.get("CODENAV_URL", ""))
    try:
        with Shown(TOOL, True) as shows:
            return finished(call, rebalance(rest[0], lists, shows))
    except NoReply as fault:
        raise BadCall(f"{fault}; nothing that is asked was lost: call again") from None


def finished(call: RebalanceCall, work: Relocation) -> int:
    """Says what was put; switches the front, where that's needed and a command was given, and
    removes what is left."""
    for fault in work.faults:
        print(f"{TOOL}: {fault}", file=sys.stderr)
    steps = ", ".join(f"{what} of {len(names)}" for what, names in work.done.items())
    print(f"sets {len(work.moving)}, put {steps}", flush=True)
    if work.faults:
        return 2
    if not work.is_switched():
        if not call.switch:
            print(f"switch {work.front.server} to these servers, and call again")
            return 0
        work.switch(call.switch)
    cleared = work.clear()
    print(f"moved {cleared.moved}, removed {cleared.removed}")
    return 0


REBALANCE = Command(
    "rebalance",
    "Puts all sets that are kept below FOLDER where a list of servers has them, as far as they aren't "
    "there: after a server was added to the list, after one left it, and where one has lost what it "
    "had. URL is the front that asks the servers. When it asks these servers, what is left where sets "
    "were is removed.",
    RebalanceCall,
    add_rebalance,
    run_rebalance,
    epilog="status: 0; 2 where something can't be carried out, and then nothing that is asked was lost",
    is_mixed=True,
)
