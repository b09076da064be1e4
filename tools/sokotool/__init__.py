"""The tool for keepers of collections: `main` reads the command line, and `commands` has a module
for each command."""

__version__ = "0.3.0-dev"
