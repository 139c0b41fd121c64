"""Browsers without a window, driven by their own protocols: what tests/page/page needs of them, alike for each."""
