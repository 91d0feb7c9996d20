"""Provides what `run_cases` and other tests of the program share: the form of cases, runs of them, and the results that they require."""
