"""The search for a placement of a program on a device."""
