"""`haul why`: the fates of soups that a census calls unsettled."""
