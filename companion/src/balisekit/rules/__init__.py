"""What is found: the program's findings by the table's names, accepted findings, and remarks of balisekit's own."""
