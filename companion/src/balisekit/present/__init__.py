"""Results in words, JSON, JUnit and HTML."""

NOT_PROVED = "balisekit is not proved; the program's own lines are quoted in full"
"""A sentence of each answer that balisekit gives in its own words."""
