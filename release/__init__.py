"""Makes a release of a checkout, or compares files of a release with the same files made anew.
`bin/release` starts this package.

This folder also has the files that only a release needs: the script that starts the program,
`uninstall`, and the files that Debian's tools need. `zipped.py` packs `haul` for a release, and
also for `bin/install`.
"""


class Failed(Exception):
    """Raised if a release can't be made or compared. The arguments are the lines of the reason."""

    def __init__(self, *lines: str, status: int = 1) -> None:
        super().__init__(*lines)
        self.status = status
