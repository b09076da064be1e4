"""Starts sokotool: `python3 -m sokotool`."""
import sys

from .main import start

sys.exit(start())
