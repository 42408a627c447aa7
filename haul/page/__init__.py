"""The page of `haul page`: a single HTML 5 file that loads no other file."""
