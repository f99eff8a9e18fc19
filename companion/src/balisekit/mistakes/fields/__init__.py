"""Mistakes in the number of one variable of a telegram or message."""
