"""Reads and writes hauls and indexes. Reads report lines, and the tables kept beside the code."""
