"""What is published from a checkout, and where: by the words of a call, and by the settings at the
top of the checkout, which a call may write."""

import json
import os
from typing import Any
from urllib.parse import urlsplit

from codenav.client.login import place_of
from codenav.faults import BadCall
from codenav.names import server_of
from codenav.settings.found import FILE, found_in_file


def target_of(url: str, words: list[str]) -> tuple[str, str, str]:
    """The server, the project and the folder of the words `[[URL] PROJECT] [FOLDER]`, of which the
    first may be empty; what they lack is what the settings in the folder say. Raises BadCall."""
    is_folder = len(words) == 1 and (os.sep in words[0] or words[0] in (os.curdir, os.pardir))
    project, *rest = ["", *words] if is_folder else words or [""]
    if len(rest) > 1:
        raise BadCall("it takes [[URL] PROJECT] [FOLDER]")
    folder = os.path.realpath(rest[0] if rest else os.curdir)
    if not os.path.isdir(folder):
        raise BadCall(f"{folder}: not a folder")
    path = os.path.join(folder, FILE)
    found = found_in_file(path) if os.path.isfile(path) else {}
    own, known = found.get("server", ""), os.environ.get("CODENAV_URL", "")
    server = url or (known or own if project else own or known)
    project = project or str(found.get("project", found.get("set", "")))
    if not project or not server:
        raise BadCall(f"no {'server' if project else 'project'}, and {path} says none")
    return server, project, folder


def plain(server: str) -> str:
    """The address of a server without a login."""
    parts = urlsplit(server_of(server))
    return place_of(parts) + parts.path


def new_settings(path: str, wanted: dict[str, Any], overwrites: bool) -> str:
    """The text of a file of settings with these; nothing where it has them already. Raises BadCall
    where it has others, unless it's overwritten."""
    found = found_in_file(path) if os.path.isfile(path) else {}
    if all(found.get(key) == value for key, value in wanted.items()):
        return ""
    if os.path.islink(path):
        raise BadCall(f"{path} is a link, which isn't followed to be written")
    if found and not overwrites:
        raise BadCall(f"{path} has other settings, which --overwrite replaces")
    lines = []
    for key, value in wanted.items():
        if isinstance(value, dict):
            lines += [
                f"[{key}]",
                *(f"{quoted(name)} = {quoted(one)}" for name, one in value.items()),
            ]
        else:
            lines.append(f"{key} = {quoted(value)}")
    return "\n".join([*lines, ""])


def quoted(value: Any) -> str:
    """A text, or a list of texts, in TOML, whose texts are those of JSON where they have no
    control characters."""
    return json.dumps(value, ensure_ascii=False)
