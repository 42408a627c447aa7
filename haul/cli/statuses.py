"""The exit statuses of `haul`, most of which mean the same as for `census`."""

from __future__ import annotations

# `NOT_RIGHT` means that `haul check` has found something that isn't right. The other statuses mean
# the same as for `census`.
DONE, USAGE, REFUSED, NO_MEMORY, FAILED, NOT_RIGHT = 0, 2, 3, 4, 5, 7
