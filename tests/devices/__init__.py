"""Input that is cut, and devices that fail."""
