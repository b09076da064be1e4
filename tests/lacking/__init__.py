"""Runs on a system that lacks what Windows or macOS lack."""
