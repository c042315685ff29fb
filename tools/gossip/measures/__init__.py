"""Experiments and their picture, and the cost of datagrams."""
