"""Runs `zonectl`: `python3 -m zonectl`."""
from .main import script

if __name__ == "__main__":
    script()
