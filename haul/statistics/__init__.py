"""Exact intervals of counts and shares, and the test of equal rates."""
