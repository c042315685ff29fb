"""Checks that what the documents of the repository name exists."""
