"""A set of a dump that is too large for one project."""
