"""The entries of the table of commands: the arguments and the help of each command."""
