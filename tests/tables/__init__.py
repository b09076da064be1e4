"""Tables of tests of the program, and a reader of their rows."""
