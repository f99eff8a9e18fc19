"""Files: read once with their checksum, and written as a whole."""
