"""What a check would find on a line: mistakes of the catalogue, each made in the line, and judged by the same rules."""
