"""The folder of a session, and how one is made."""
