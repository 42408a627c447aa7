"""Modules that the checks share.

`count` counts and prints, and `program` finds the program to test. `plain` has the definitions of
the census, `patterns` and `stills` have known patterns and soups, `formats` has the texts that the
program reads and writes, and `calls` has calls with the answers that they must give. No module here
uses `haul/`, so that a mistake in `haul/` can't also be in what `haul/` is compared with.
"""
