"""Lists of codes that others know, which the user has added."""
