"""The command line of `haul`: options, commands, and how the process ends."""
