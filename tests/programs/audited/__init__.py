"""Rows for tests/programs/audit: what iptaudit is asked, and what it has to write."""
