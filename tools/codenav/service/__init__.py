"""What keeps a server running: it's started again, takes turns, is copied while it runs, and its
file is known at the next start."""
