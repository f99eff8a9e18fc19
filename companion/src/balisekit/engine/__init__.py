"""The program balisecheck: where it is, how it is run, and what its answers contain."""
