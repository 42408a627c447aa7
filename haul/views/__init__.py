"""Prints hauls and report lines for the commands, as text, CSV and JSON."""
