"""A small model of Life and similar rules: generations, soups, codes, parts and drawings.

It is tested, not proved: the tests compare it with `census`.
"""
