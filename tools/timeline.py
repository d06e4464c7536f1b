#!/usr/bin/python3
"""The command timeline."""
import sys

from haboob_tools.timeline import main

if __name__ == "__main__":
    sys.exit(main())
