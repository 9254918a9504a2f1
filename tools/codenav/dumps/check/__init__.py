"""What is wrong with a dump, and why an answer of it is what it is."""
