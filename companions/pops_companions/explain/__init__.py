"""Explaining the faults of an input: reading it as pops does, and naming the likely causes."""
