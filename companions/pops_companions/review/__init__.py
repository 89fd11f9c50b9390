"""Collections by their reports: which problems are sound, and what two reports differ in."""
