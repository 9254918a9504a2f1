"""A whole dump as tables of numbers."""
