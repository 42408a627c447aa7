"""The rarity of objects: the reference census, and the statistics of rates."""
