"""Mutation testing: changes `haul` in one place at a time, and runs the tests that may notice the
change."""
