"""Reports of pops, read by their grammar (docs/report.ebnf)."""
