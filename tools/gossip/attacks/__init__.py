"""A sender that attacks a session, and the checks on the parties that keep the rules."""
