"""Runs the command `design`."""
import sys

from .cli import main

sys.exit(main(sys.argv[1:]))
