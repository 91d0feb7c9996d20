"""Makes a machine file from the questions of a project's run and the answers of this machine."""
