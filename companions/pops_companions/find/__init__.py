"""A collection of problems in one SQLite file, and what is found in it."""
