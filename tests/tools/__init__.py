"""The tests of sokotool."""
