"""A set on its servers."""
