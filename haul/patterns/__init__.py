"""Patterns as texts (plaintext, RLE and coordinates), notations of rules, and codes of objects."""
