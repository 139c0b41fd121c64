"""The page, in two browsers."""
