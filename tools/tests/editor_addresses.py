"""How editors spell the address of a file, and what they send of its text: of Neovim and Emacs by
traces, of others by their sources."""

from typing import NamedTuple

NAME = "a b(1)[x]@+,=&#%\u00e9\U0001F600.rs"
UNRESERVED = "a%20b%281%29%5Bx%5D%40%2B%2C%3D%26%23%25%C3%A9%F0%9F%98%80.rs"
"""All but letters, digits and `-._~/` encoded."""
IN_PATH = "a%20b(1)[x]@+,=&%23%25%C3%A9%F0%9F%98%80.rs"


class Spelling(NamedTuple):
    """An editor, with what says so; the file's name as it has it, behind `file://` and a host; and
    the ends of lines that it sends of a file with those of Windows. None sends the mark."""

    editor: str
    name: str
    host: str = ""
    line_end: str = "\r\n"


SPELLINGS = [
    Spelling(
        "Neovim 0.7.2, by a trace",
        "a%20b(1)%5bx%5d@+,=&%23%25%c3%a9%f0%9f%98%80.rs",
    ),
    Spelling(
        "Emacs 28.2 with eglot 1.9, by a trace, which leaves `%`",
        "a%20b(1)%5Bx%5D@+,=&%23%%C3%A9%F0%9F%98%80.rs",
        line_end="\n",
    ),
    Spelling("VS Code: vscode-uri, encodeURIComponentFast", UNRESERVED),
    Spelling("Emacs with lsp-mode: lsp--path-to-uri-1", UNRESERVED, line_end="\n"),
    Spelling("Vim with vim-lsp: lsp#utils#path_to_uri", UNRESERVED, line_end="\n"),
    Spelling("Helix: Url::from_file_path of the crate url", IN_PATH),
    Spelling("a host that the URL Standard drops", IN_PATH, host="localhost"),
]
SAME = [
    ["file:///c%3A/x", "file:///c:/x", "file:///C:/x", "file:///C%3a/x", "file:/c:/x"],
    ["file:///a%5Bx%5D", "file:///a[x]", "file:///a%5bx%5d", "file://localhost/a[x]"],
    ["untitled:Untitled-1", "UNTITLED:Untitled-1"],
    ["jdt://contents/a.class?=%3C", "jdt://contents/a.class?=%3c", "jdt://contents/a.class?=<"],
]
"""Addresses of one document."""
