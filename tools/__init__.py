"""Holds the commands of `meson` that are scripts, and their parts; `meson self-install` installs it."""
