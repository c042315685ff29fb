"""Runs of the program in which the system fails: disks, limits, signals, clocks, memory and streams."""
