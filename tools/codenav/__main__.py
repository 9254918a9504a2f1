"""`python3 -m codenav`; by the path of this file, too."""

import os
import sys

if not __package__:
    sys.path[0] = os.path.dirname(os.path.dirname(os.path.abspath(__file__)))

from codenav.cli.start import run

run()
