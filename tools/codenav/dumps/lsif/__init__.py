"""LSIF as indexers write it."""
