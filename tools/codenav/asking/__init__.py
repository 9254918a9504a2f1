"""A question at a place, or for a name, of today's files."""
