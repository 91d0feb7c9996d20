"""Holds the tests that are scripts, and their parts."""
