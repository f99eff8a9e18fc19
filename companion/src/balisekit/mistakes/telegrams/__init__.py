"""Mistakes with telegrams, aspects and groups."""
