"""Holds the parts of `meson port`."""
