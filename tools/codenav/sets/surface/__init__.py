"""What other servers need of a set."""
