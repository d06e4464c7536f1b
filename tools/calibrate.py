#!/usr/bin/python3
"""The command calibrate."""
import sys

from haboob_tools.calibrate import main

if __name__ == "__main__":
    sys.exit(main())
