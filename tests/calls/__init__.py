"""Tests of public calls of the libraries, which the program of the crate `calls` makes by name."""
