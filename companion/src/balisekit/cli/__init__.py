"""The command line: one module a command, the options that they share, and how a command ends."""
