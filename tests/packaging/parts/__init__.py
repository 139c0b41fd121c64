"""First answers of installed commands."""
