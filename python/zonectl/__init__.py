"""The command `zonectl`: are two copies of a DNS zone the same, and if not, what differs?

It reads zones in process through the module `zonenorm`, so the proved engine decides what a zone is and which zones are equal.
`zonectl` itself is tested and not proved: it has the sockets, the files and the output.
"""
from typing import Final

__all__ = ["__version__"]
__version__: Final = "0.1.0"
