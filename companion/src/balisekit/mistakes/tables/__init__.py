"""Mistakes in the table: its rows, names and kilometres."""
