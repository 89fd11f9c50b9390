"""Reports shown: diagrams, pages, LaTeX, JSON."""
