"""A file's text, and where its places are today."""
