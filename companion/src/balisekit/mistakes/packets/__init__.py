"""Mistakes with whole packets of a telegram or message, and with the lists in them."""
