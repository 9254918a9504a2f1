"""What is asked, and by what, of a file of settings."""
