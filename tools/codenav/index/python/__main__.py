"""Answers of files of Python, as a process of its own: Debian's Python runs the path of this file.
By `paths` it says where that has modules."""

import os
import sys

PATHS = [os.path.realpath(path) for path in sys.path[1:] if os.path.isdir(path)]
sys.path[0] = os.path.dirname(os.path.dirname(os.path.dirname(os.path.dirname(__file__))))

from codenav.index.python.serving import serve

if sys.argv[1:] == ["paths"]:
    print(*PATHS, sep="\0")
else:
    serve(PATHS)
