"""A server of the program over HTTP."""
