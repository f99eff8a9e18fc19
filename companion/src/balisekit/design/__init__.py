"""What a design lets one expect of a line. Nothing here reads telegrams: no mistake of reading is on both sides."""
