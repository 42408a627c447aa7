"""The test suite: a folder for each kind of check, and `lib` with what they share."""
