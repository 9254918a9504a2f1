"""Web pages of a folder's files, which ask the index at their words."""
