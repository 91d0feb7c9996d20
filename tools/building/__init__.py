"""Provides the parts of `build-program` and `build-library`: the crates, the command that checks one, and which checks run when."""
