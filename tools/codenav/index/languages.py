"""The languages that may be indexed without an indexer, and what answers of each: a language server,
or a pass of our own over all its files."""

import os
import shlex
import shutil
from operator import attrgetter
from typing import Any, Callable, Mapping, NamedTuple, Optional, Sequence, Union

from codenav.faults import BadCall
from codenav.index import settings
from codenav.index.again import Depends, by_includes, by_leads, by_packages
from codenav.index.answers import Answers
from codenav.index.building import DATABASES, FLAGS, Building
from codenav.index.given import Document, Given
from codenav.index.kept import Kept
from codenav.index.packages import (
    Package,
    c_package,
    crate_in,
    go_package,
    npm_package,
    pip_package,
)
from codenav.index.python import line as python
from codenav.index.surfaces import c_surface, go_surface
from codenav.index.typescript import checker

DIAGNOSTICS, HIGHLIGHTS = "textDocument/publishDiagnostics", "$ccls/publishSemanticHighlight"
STATUS = "experimental/serverStatus"
"""By what servers say that they have read a document, or all."""
HEADERS = (".h", ".hh", ".hpp", ".hxx", "")
GO_VARIABLES = (
    "GOVERSION GOROOT GOOS GOARCH GOAMD64 GOARM GOFLAGS GOWORK GO111MODULE GOPATH GOMODCACHE GOPROXY "
    "GOEXPERIMENT CGO_ENABLED CGO_CFLAGS CGO_CPPFLAGS CC"
)
RUST_FILES = (
    *("Cargo.toml", "Cargo.lock", "rust-project.json", ".cargo/config.toml", ".cargo/config"),
    *("rust-toolchain.toml", "rust-toolchain", "build.rs", "rust-analyzer.toml"),
)


class ServerKind(NamedTuple):
    """A language server: how it's called, Debian's package of it, and its settings for a folder and
    its documents. It's ready when it has sent its sign, of each
    open document or of itself, or where it has none when it has been silent for so many seconds
    with no progress under way. It's asked of some keywords too, which are names. It may take a
    backslash in a path for a slash, and read by itself the files that aren't open."""

    line: str
    package: str = ""
    settings_of: Callable[[str, Sequence[Document]], dict[str, Any]] = settings.none
    sign: str = ""
    silence: float = 2
    keywords: frozenset[str] = frozenset()
    is_slashed: bool = False
    reads_folder: bool = False

    def lacks(self) -> str:
        """What of it isn't installed; empty where all is."""
        program = next(iter(shlex.split(self.line)), "")
        return "" if shutil.which(program) else program


class Pass(NamedTuple):
    """What answers of all documents of a language at once: how it's called, Debian's packages of it,
    what of it isn't installed, and its answers of a folder, with what is kept of them."""

    line: str
    package: str
    lacks: Callable[[], str]
    answers: Callable[[Given, Kept], tuple[Answers, Kept]]


Way = Union[ServerKind, Pass]


class Language(NamedTuple):
    """A language: the identifiers by which the protocol knows it, by the suffixes of its files; what
    answers of it, the first that's installed; what is at the top of a folder where it's built, and
    what is missed where none of that is there; the indexer that comes before these; its packages'
    manager, and the package of a folder; what depends on a file that changed; whether a type
    implements another by what it has alone; what says to its servers how files are built; what of a
    text other files hold by; and whether files include others, where a server says of a symbol what
    any of them has beside a declaration.
    """

    name: str
    suffixes: Mapping[str, str]
    ways: tuple[Way, ...]
    manifests: tuple[str, ...]
    without: str
    indexer: str
    manager: str
    package_of: Callable[[str], Optional[Package]]
    depends: Depends = by_leads
    is_structural: bool = False
    building: Building = Building()
    surface: Callable[[Document], str] = attrgetter("text")
    has_includes: bool = False


LANGUAGES = (
    Language(
        "C and C++",
        {".c": "c", ".h": "c"}
        | dict.fromkeys((".cc", ".cpp", ".cxx", ".hh", ".hpp", ".hxx"), "cpp"),
        (
            ServerKind(
                "clangd --background-index=0 --log=error",
                "clangd",
                settings.clangd,
                DIAGNOSTICS,
                is_slashed=True,
            ),
            ServerKind("ccls", "ccls", settings.ccls, HIGHLIGHTS, is_slashed=True),
        ),
        (*DATABASES, FLAGS),
        "no compile_commands.json (`bear -- make` writes it): the server guesses how files are compiled",
        "scip-clang",
        "pkg-config",
        c_package,
        by_includes,
        building=Building(
            (*DATABASES, FLAGS, ".clangd", ".clang-tidy", ".ccls"),
            (("XDG_CONFIG_HOME", "~/.config", "clangd/config.yaml"),),
            ("CPATH", "C_INCLUDE_PATH", "CPLUS_INCLUDE_PATH", "CLANGD_"),
        ),
        surface=lambda one: c_surface(one.text) if one.uri.endswith(".c") else one.text,
        has_includes=True,
    ),
    Language(
        "Go",
        {".go": "go"},
        (ServerKind("gopls", "gopls and golang-go", settings.gopls, reads_folder=True),),
        ("go.mod", "go.work"),
        "no go.mod: the server takes each folder for a package without a name",
        "scip-go",
        "gomod",
        go_package,
        by_packages,
        is_structural=True,
        building=Building(
            ("go.mod", "go.sum", "go.work", "go.work.sum", "vendor/modules.txt"),
            variables=("GOPACKAGESDRIVER", "PKG_CONFIG"),
            lines=(("go", "env", *GO_VARIABLES.split()),),
        ),
        surface=lambda one: go_surface(one.text),
    ),
    Language(
        "Python",
        {".py": "python", ".pyi": "python"},
        (
            Pass(
                "Python's own rules, and Debian's python3-jedi",
                "python3",
                python.lacks,
                python.answers,
            ),
        ),
        (),
        "",
        "scip-python",
        "pip",
        pip_package,
    ),
    Language(
        "Rust",
        {".rs": "rust"},
        (
            ServerKind(
                "rust-analyzer",
                "",
                settings.rust_analyzer,
                STATUS,
                keywords=frozenset(("crate", "super", "self", "Self")),
            ),
        ),
        ("Cargo.toml", "rust-project.json"),
        "no Cargo.toml: the server takes each file for one that's alone",
        "rust-analyzer",
        "cargo",
        crate_in,
        building=Building(
            RUST_FILES,
            tuple(("CARGO_HOME", "~/.cargo", name) for name in ("config.toml", "config")),
            ("CARGO", "RUST"),
            (("rustc", "-vV"), ("rustc", "--print", "sysroot")),
        ),
    ),
    Language(
        "TypeScript and JavaScript",
        dict.fromkeys((".ts", ".mts", ".cts"), "typescript")
        | dict.fromkeys((".js", ".mjs", ".cjs"), "javascript")
        | {".tsx": "typescriptreact", ".jsx": "javascriptreact"},
        (
            Pass(
                "node (one pass of the compiler's checker)",
                "node-typescript",
                checker.lacks,
                checker.answers,
            ),
        ),
        ("tsconfig.json", "jsconfig.json", "package.json"),
        "no tsconfig.json and no package.json: no file is the first, and no name is exported",
        "scip-typescript",
        "npm",
        npm_package,
    ),
)


def is_header(path: str) -> bool:
    """Whether a file is a header of C or C++, some of whose have no suffix."""
    return os.path.splitext(path)[1] in HEADERS


def is_c(path: str) -> bool:
    """Whether a file is of C alone, by its suffix."""
    return os.path.splitext(path)[1] in (".c", ".h")


def language_of(path: str) -> Optional[tuple[Language, str]]:
    """The language of a file by its suffix, and its identifier; None where it's none that is known."""
    suffix = os.path.splitext(path)[1]
    for language in LANGUAGES:
        if suffix in language.suffixes:
            return language, language.suffixes[suffix]
    return None


def installed(language: Language, line: Optional[str] = None) -> Way:
    """What answers of a language: the first of its own that's installed, or the server that a line
    calls. Raises BadCall where there's none."""
    ways = language.ways
    if line is not None:
        try:
            program = os.path.basename(next(iter(shlex.split(line)), ""))
        except ValueError as fault:
            raise BadCall(f"--server {line!r}: {fault}") from None
        if not program:
            raise BadCall(f"--server {line!r}: no program is named")
        known = {way.line.split()[0]: way for way in language.ways if isinstance(way, ServerKind)}
        is_slashed = program in known and known[program].is_slashed
        ways = (known.get(line, ServerKind(line, is_slashed=is_slashed)),)
    for way in ways:
        if not way.lacks():
            return way
    lacks = ways[0].lacks()
    package = f" (Debian's {ways[0].package})" if ways[0].package else ""
    raise BadCall(f"{language.name} would be asked of {lacks}, which isn't installed{package}")
