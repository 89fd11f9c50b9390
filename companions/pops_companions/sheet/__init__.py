"""Sheets of solutions, as magazines print them."""
