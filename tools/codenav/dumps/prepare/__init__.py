"""A dump that the server accepts of an indexer's."""
