"""The input language of pops: its words, its problems, and problems written in it."""
