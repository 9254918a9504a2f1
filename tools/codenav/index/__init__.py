"""A checkout's dump and its tags."""
