"""What is missing on this machine."""
from __future__ import annotations


class MissingTool(Exception):
    """A program or a library that is not installed. `package` is its name in Debian."""

    def __init__(self, tool: str, package: str) -> None:
        super().__init__(tool, package)
        self.tool = tool
        self.package = package

    def __str__(self) -> str:
        return f"{self.tool} is not installed: apt install {self.package}"
