#!/usr/bin/python3
"""The command capture from log."""
import sys

from haboob_tools.capture_from_log import main

if __name__ == "__main__":
    sys.exit(main())
