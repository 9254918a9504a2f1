"""Dumps of indexers: what they say, and what of it the server takes."""
