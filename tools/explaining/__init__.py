"""Explains in words what the first fault of a run is about."""
