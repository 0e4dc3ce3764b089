"""Runs `python -m mesosev`. Without the wheel mesosev is a single module, which needs no such file."""
import sys

from mesosev import main

sys.exit(main())
