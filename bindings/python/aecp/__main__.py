"""Runs the command aecp: python -m aecp."""

from aecp.cli import main

if __name__ == "__main__":
    main()
