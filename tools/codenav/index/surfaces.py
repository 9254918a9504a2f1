"""What of a text the answers of other files hold by."""

import re

GO = re.compile(
    r"//[^\n]*|/\*.*?\*/|`[^`]*`|\"(?:\\.|[^\"\\\n])*\"|'(?:\\.|[^'\\\n])*'|\(type\)|\w+|[^\w\s]|\n",
    re.DOTALL,
)
C = re.compile(
    r"^[ \t]*#(?:\\\n|[^\n])*|//(?:\\\n|[^\n])*|/\*.*?\*/|\"(?:\\.|[^\"\\\n])*\"|'(?:\\.|[^'\\\n])*'|\w+|[^\w\s]",
    re.DOTALL | re.MULTILINE,
)
SHARED = re.compile(
    r"^[ \t]*#|\bextern\b|[;{}]\s*(?!(?:return|else|do|goto)\b)[^\W\d]\w*[\s*]+(?:\w+[\s*]+)*\w+\s*\([^(){};=]*\)\s*;",
    re.MULTILINE,
)
"""What in a body of C may be for other files: a directive, or a declaration of a function or of what
is defined elsewhere."""
OPEN, CLOSED, ENDS, QUOTES = set("({["), set(")}]"), {"\n", ";"}, set("`\"'")


def go_surface(text: str) -> str:
    """A text of Go without the bodies of functions, but for those that have types of their own; all of
    it where it isn't whole."""
    parts, kept, depth = list[str](), 0, 0
    is_first, in_function, has_type = True, False, False
    start, body = 0, (0, 0)
    for found in GO.finditer(text + "\n"):
        token = found[0]
        if token in OPEN:
            start = found.start() if depth == 0 else start
            depth += 1
        elif token in CLOSED:
            depth -= 1
            if depth < 0:
                return text
            if depth == 0 and token == "}" and in_function:
                body = start, found.end()
        elif token in QUOTES:
            return text
        elif depth == 0 and token in ENDS:
            if body[1] and not has_type:
                parts += [text[kept : body[0]], "{}"]
                kept = body[1]
            is_first, in_function, has_type, body = True, False, False, (0, 0)
            continue
        elif depth == 0 and is_first and token == "func":
            in_function = True
        has_type = has_type or token == "type"
        is_first = is_first and token.startswith(("//", "/*"))
    return "".join([*parts, text[kept:]]) if depth == 0 else text


def c_surface(text: str) -> str:
    """A text of C without the bodies of functions, but for those with what may be for other files; all of
    it where it isn't whole."""
    parts, kept, depth, start, last = list[str](), 0, 0, -1, ""
    for found in C.finditer(text):
        token = found[0]
        if token.startswith(("//", "/*")):
            continue
        if token in OPEN:
            if depth == 0:
                start = found.start() if (last, token) == (")", "{") else -1
            depth += 1
        elif token in CLOSED:
            depth -= 1
            if depth < 0:
                return text
            if depth == 0 and start >= 0 and not SHARED.search(text, start, found.end()):
                parts += [text[kept:start], "{}"]
                kept = found.end()
        elif token in QUOTES:
            return text
        last = token
    return "".join([*parts, text[kept:]]) if depth == 0 else text
