"""SCIP indexes, and dumps of them."""
