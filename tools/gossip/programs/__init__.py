"""How the program `bar` and the other programs of the tools are built and run."""
