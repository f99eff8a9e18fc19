"""What the numbers of telegrams and messages mean: variables, packets, bit positions and distances."""
