"""Reads the collections of named patterns that the user has."""
