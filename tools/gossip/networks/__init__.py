"""The network between parties: losses and lies, relays, hosts, and the forwarding between hosts."""
