"""Configures a project whose files are in memory, and prints its build.ninja."""
import sys

import hawkottoman

run = hawkottoman.setup(
    {"meson.build": b"project('embed', 'c')\nexecutable('embed', 'main.c')\n", "main.c": b"int main(void) { return 0; }\n"},
    machine=b"[binaries]\nc = 'cc'\nar = 'ar'\n")
print(run.fault, end="", file=sys.stderr)
print(run.outputs.get("build.ninja", b"").decode(), end="")
sys.exit(run.status)
