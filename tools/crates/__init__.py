"""Sources of crates that are written, and what is checked of them."""
