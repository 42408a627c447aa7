"""The client of `census`: its command lines, its processes and its answers."""
