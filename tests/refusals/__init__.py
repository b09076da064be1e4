"""Tests with refused allocations, little memory, and devices that fail."""
