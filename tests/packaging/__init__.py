"""Completion, the archive, the package, and what is installed of them."""
