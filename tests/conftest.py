"""The program is found once: processes of xdist and scripts take it over. Scripts start the Python of the tests, and have
no CDPATH, by which `cd` would lead elsewhere."""
import os
import sys

import runner

os.environ.pop("CDPATH", None)
os.environ.update(BALISECHECK=runner.program(), PATH=f"{os.path.dirname(sys.executable)}:{os.environ['PATH']}")


def pytest_collection_modifyitems(items):
    """Slow tests begin first, so that none is left at the end."""
    items.sort(key=lambda it: it.get_closest_marker("slow") is None)
