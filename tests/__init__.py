"""The tests. `tests/run PART WORDS..` runs one part; `.ci/run` runs them all."""
