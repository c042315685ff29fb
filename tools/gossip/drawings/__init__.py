"""A run, drawn as a picture and as a page."""
