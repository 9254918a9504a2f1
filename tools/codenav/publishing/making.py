"""Makes of a checkout what is uploaded: its dump and its tags, or the parts of a set. All of it is
checked by the server's own rules, where the program is at hand, before anything is uploaded.
"""

from __future__ import annotations

import os
import shutil
from contextlib import suppress
from typing import TYPE_CHECKING, Iterator, Optional, Union, cast

from codenav.addresses import folder_address
from codenav.dumps.dump import is_scip, opened_dump, profile_of
from codenav.dumps.lsif.reading import Source
from codenav.dumps.prepare.plan import Options
from codenav.dumps.prepare.prepare import prepare
from codenav.dumps.scip.options import ScipOptions
from codenav.faults import BadCall, Unfit
from codenav.files import whole_file
from codenav.index import tags_file
from codenav.index.indexers import Choice, NotInstalled, fitting, indexed, named
from codenav.index.languages import language_of
from codenav.names import set_name
from codenav.outcome import MENDED, Outcome
from codenav.progress import Shows
from codenav.publishing.asked import ALONE, asked_dump
from codenav.publishing.checked import check
from codenav.publishing.inside import folder_inside
from codenav.publishing.made import Body, How, Made, Refused, Row, rows_of
from codenav.publishing.more import OF_SET, add_more, without_kept
from codenav.publishing.target import Target
from codenav.records import Prepared, line_of, new_record
from codenav.sets.files import files_of
from codenav.sets.publish.publish import fetch_cuts
from codenav.sets.publish.store import Store
from codenav.sets.split.split import SetFiles, SplitOptions, split
from codenav.sets.surface.made import keep_surface, made_surface, surface_file
from codenav.texts.checked_out import indexed_at, still_indexed_at
from codenav.texts.decoded import MARKS
from codenav.texts.places import map_words, uri_of

if TYPE_CHECKING:
    from codenav.dumps.scip.messages import IndexFile

MISSING = {
    "lsif": "no indexer is known for what is here (--index)",
    "tags": "ctags isn't installed (Debian's universal-ctags)",
}
WIDE = "files in UTF-16, which ctags doesn't read"


class Making:
    """A checkout on the way to what is uploaded to a target."""

    def __init__(self, folder: str, target: Target, how: How, shows: Shows) -> None:
        """Looks which commit it's of, and says where that can't be known. Raises BadCall."""
        self.folder, self.target, self.how, self.shows = folder, target, how, shows
        self.is_set, self.profile = how.set or target.is_set, how.profile
        self.where, self.outcome, self.left_out = uri_of(folder, []), Outcome(), list[Row]()
        self.recorded: Optional[Prepared] = None
        self.inside, self.lacking = os.curdir, MISSING["lsif"]
        self.here, fault = indexed_at(folder, how.revision)
        self.said, self.looks_again = cast(Optional[str], None), not fault
        if fault:
            shows.warn(fault)

    @property
    def commit(self) -> str:
        """The commit that the index is of: as the dump says itself, or the checkout's."""
        return self.here if self.said is None else self.said

    def make(self, work: str) -> Made:
        """Makes all in a folder, and checks it. Raises Refused, BadCall and NotADump."""
        self.files = list(tags_file.files_of(self.folder))  # without what an indexer leaves there
        self.is_set = self.is_set or not self.how.is_alone and self.target.has_set()
        raw, bodies, files = self.raw_dump(work), list[Body](), None
        if raw:
            dump = self.prepared_dump(raw, work)
            self.profile = self.profile or profile_of(dump)
            bodies.append(Body(self.target.project, "lsif", dump, self.profile))
        elif not self.how.no_index and not self.left_out:
            self.left_out.append(Row("dump", None, self.lacking))
        tags = "" if self.how.no_tags else self.tags(work, bool(raw))
        if tags:
            bodies.append(Body(self.target.project, "tags", tags, None))
        self.look_again(tags)
        if not bodies:
            nothing = "there are no tags"
            if not self.how.no_index:
                nothing = f"no indexer is known for what is here, and {nothing}"
            whys = [row.why for row in self.left_out if row.why not in MISSING.values()]
            raise BadCall(f"{self.folder}: {'; '.join([nothing, *whys])}")
        if self.is_set:
            if not raw:
                raise BadCall("a set is made of a dump: there is none")
            files = self.split(dump, tags, os.path.join(work, "set"))
            bodies = [*self.parts(files), *self.surface(files, dump)]
            self.outcome = files.reading if is_scip(dump) else self.outcome
        check(bodies, self.how.program, self.profile, self.shows)
        rows = (*rows_of(self.outcome, self.profile), *self.left_out)
        places = self.where, self.inside, self.commit
        return Made(self.folder, tuple(bodies), files, self.profile, *places, rows)

    def raw_dump(self, work: str) -> str:
        """The file with the dump or the index of the checkout, which was given or is written now;
        empty where there's none to be had."""
        if self.how.dump or self.how.no_index:
            return "" if self.how.no_index else self.how.dump
        line = self.how.index
        if not line:
            try:
                indexer, left = self.indexer()
            except NotInstalled as fault:
                return self.asked_dump(work, fault)
            self.left_out += [Row("dump", None, why) for why in left]
            if indexer is None:
                return self.asked_dump(work, None)
            line = indexer.line
        self.shows.begin(f"indexed by {line}")
        path = indexed(line, self.folder, self.target.project, work, self.shows)
        self.shows.end(f"{os.path.getsize(path)} bytes")
        return path

    def indexer(self) -> Choice:
        """The indexer that is called, and what's said of languages that it leaves."""
        return Choice(named(self.how.indexer), ()) if self.how.indexer else fitting(self.folder)

    def asked_dump(self, work: str, fault: Optional[NotInstalled]) -> str:
        """The file with the dump that is made without an indexer; empty where there's none."""
        asked = asked_dump(self.folder, work, fault, self.shows)
        if asked.lacking:
            self.lacking = asked.lacking
        self.left_out += asked.left_out
        return asked.path

    def prepared_dump(self, raw: str, work: str) -> str:
        """The file of the dump that is uploaded, which is a set's where it's too large for one
        project. An index that becomes a set is split itself, but where a surface is made of the
        dump too."""
        is_split = is_scip(raw) and not self.target.servers
        if self.is_set and is_split:
            with opened_dump(raw) as source:
                root = "" if isinstance(source, Source) else source.metadata.project_root
            self.where = folder_address(root) or self.where
            return raw
        dump = os.path.join(work, "dump.lsif")
        outcome = self.prepare(raw, dump)
        self.is_set = self.is_set or bool(outcome.over)
        if self.how.more:
            left = [OF_SET] if self.is_set else add_more(raw, dump)
            self.left_out += left
            outcome = outcome if left else without_kept(outcome)
        is_over = not self.is_recorded(dump) or bool(outcome.over)
        self.is_set = self.is_set or is_over
        if is_over and is_split:
            return raw
        self.outcome = outcome
        return dump

    def prepare(self, raw: str, out: str) -> Outcome:
        """Writes the dump that the server takes of a dump or an index."""
        with opened_dump(raw) as source, whole_file(out) as file:
            if isinstance(source, Source):
                options = Options(
                    strip=True,
                    without=tuple(self.how.without),
                    reports=True,
                    profile=self.profile,
                )
                outcome = prepare(source, file, options, self.shows)
            else:
                from codenav.dumps.scip.conversion import convert

                outcome = convert(source, file, self.of_index(), self.shows)
        for note in outcome.notes:
            if note.kind == MENDED:
                self.shows.warn(str(note))
        if any(excess.code == "L01" for excess in outcome.over):
            raise Refused("\n".join(map(str, outcome.over)))
        return outcome

    def of_index(self) -> ScipOptions:
        """How an index is read."""
        return ScipOptions(self.folder, without=tuple(self.how.without))

    def is_recorded(self, path: str) -> bool:
        """Adds to a dump, unless it becomes a set, of which revision it is; says whether it's within
        the limits of the server then. A dump that has a record keeps it, and is of that revision.

        Raises BadCall where the call names another one.
        """
        dump = Prepared(path)
        if not dump.documents:
            raise BadCall(f"{self.folder}: the index has no documents: {ALONE}")
        self.where = dump.root or self.where
        self.inside = folder_inside(self.folder, self.where, dump.documents)
        if dump.is_recorded:
            self.said = dump.record.revision if dump.record else ""
            if self.how.revision and self.said != self.here:
                of = f"revision {self.said}" if self.said else "no revision"
                raise BadCall(
                    f"the dump says itself that it's of {of}, and not of {self.how.revision}"
                )
        if self.is_set or dump.is_recorded:
            return True
        self.recorded = dump if dump.add(new_record(self.commit, self.where)) else None
        return self.recorded is not None

    def look_again(self, tags: str) -> None:
        """Has the index be of no revision where the checkout changed while it was made, but where
        the call or the dump names one; says so. Adds to tags of which they are."""
        if self.looks_again:
            self.here, fault = still_indexed_at(self.folder, self.here, self.how.revision)
            if fault and self.said is None:
                self.shows.warn(fault)
                if self.recorded is not None:
                    self.recorded.add(new_record(self.commit, self.where))
        if tags and not self.is_set:
            with open(tags, "ab") as file:
                file.write(line_of(self.here))

    def tags(self, work: str, may_be_empty: bool) -> str:
        """The tags file of the checkout; empty where there's none."""
        if not shutil.which("ctags"):
            self.left_out.append(Row("tags", None, MISSING["tags"]))
            return ""
        path = os.path.join(work, "tags")
        self.shows.begin("tags by ctags")
        count, left_out = tags_file.tagged(self.folder, self.files, path, self.is_set)
        self.shows.end(f"{count} tags")
        self.left_out += [
            Row("tags", number, tags_file.LEFT_OUT[code])
            for code, number in sorted(left_out.items())
        ]
        wide = [
            name for name in self.files if language_of(os.fsdecode(name)) and self.is_wide(name)
        ]
        if wide:
            self.left_out.append(Row("tags", len(wide), WIDE))
        return path if count or may_be_empty else ""

    def is_wide(self, name: bytes) -> bool:
        """Whether a file is in UTF-16."""
        with suppress(OSError), open(os.path.join(os.fsencode(self.folder), name), "rb") as file:
            return file.read(2) in MARKS
        return False

    def split(self, dump: str, tags: str, folder: str) -> SetFiles:
        """Splits a dump or an index and the tags into the parts of a set, which keeps the cuts of
        the set on the server. Raises Refused."""
        name = set_name(self.target.project)
        words = map_words(self.where, os.path.join(self.folder, self.inside))
        if not self.how.is_alone:
            fetch_cuts(Store(self.target.home), name, folder)
        options = SplitOptions(
            name,
            self.profile,
            self.commit,
            (words,),
            tags,
            self.folder,
            shown=f"the dump of {self.folder}",
        )
        with opened_dump(dump) as source:
            given: Union[str, IndexFile] = dump if isinstance(source, Source) else source
            try:
                return split(given, options, folder, self.shows, self.of_index())
            except Unfit as fault:
                raise Refused(str(fault)) from None

    def parts(self, files: SetFiles) -> Iterator[Body]:
        """The parts of a set."""
        for project in files.head.projects():
            for part, path in files_of(files.folder, project).items():
                yield Body(project, part, path, self.profile if part == "lsif" else None)

    def surface(self, files: SetFiles, dump: str) -> list[Body]:
        """Makes the surface of a dump where there are several servers, in a folder of its own
        beside its parts; answers its parts."""
        if not self.target.servers:
            return []
        own = os.path.join(files.folder, "surface")
        apart = [name for name in self.how.apart.split(",") if name]
        surface = made_surface(dump, files.head.name, self.profile, own, self.shows, apart=apart)
        keep_surface(files.folder, surface)
        return [
            Body(part.project, "lsif", surface_file(own, part.project), self.profile)
            for part in surface.parts
        ]
