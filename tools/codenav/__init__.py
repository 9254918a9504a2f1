"""The tools beside the server."""

VERSION = "0.1.0"
