"""Wrong bodies, as files have them."""
