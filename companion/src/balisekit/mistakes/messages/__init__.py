"""Mistakes with radio messages."""
