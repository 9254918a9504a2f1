"""From a checkout to a server."""
