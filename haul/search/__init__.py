"""`haul search`: its batches of soups, its files, and its finds."""
