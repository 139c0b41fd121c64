"""Allocations that are refused, and calls that take no memory."""
