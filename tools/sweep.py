#!/usr/bin/python3
"""The command sweep."""
import sys

from haboob_tools.sweep import main

if __name__ == "__main__":
    sys.exit(main())
