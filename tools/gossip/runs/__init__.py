"""How a session is run: live, disturbed, over hosts or simulated."""
