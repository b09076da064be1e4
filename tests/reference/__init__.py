"""Compares the program with the rules of `reference/`."""
