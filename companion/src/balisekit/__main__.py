"""`python3 -m balisekit`."""
import sys

from balisekit.start import main_of_module

sys.exit(main_of_module())
