"""Solving many problems at once: cutting inputs up, running pops, joining the reports."""
