"""Men, squares, stipulations and positions."""
