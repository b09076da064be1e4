"""The formats in which other programs write levels and solutions."""
