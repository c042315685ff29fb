"""Reports on a run, from the files that it left."""
