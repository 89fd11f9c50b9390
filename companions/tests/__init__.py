"""The tests of the companions; `tests/companions` runs them."""
