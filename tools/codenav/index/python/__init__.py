"""Where the names of Python lead: by its own rules, and beyond by what is inferred of values."""
