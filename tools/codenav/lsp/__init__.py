"""An editor's server by the Language Server Protocol."""
