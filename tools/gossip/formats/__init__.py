"""Files and datagrams: their grammar, how they are read, described and captured."""
