"""Names the systems on which the wheel runs."""
import os
from typing import Any, Dict

from hatchling.builders.hooks.plugin.interface import BuildHookInterface


class ProgramHook(BuildHookInterface):
    """The wheel is for the processor and the C library that its program needs, or for any system, and any Python 3."""

    def initialize(self, version: str, build_data: Dict[str, Any]) -> None:
        build_data["tag"] = f"py3-none-{os.environ['TAG']}"
        build_data["pure_python"] = os.environ["TAG"] == "any"
