"""Holds the commands of `meson` that are modules: `tools/command NAME` calls the function `run` of one."""
