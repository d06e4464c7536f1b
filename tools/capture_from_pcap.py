#!/usr/bin/python3
"""The command capture from pcap."""
import sys

from haboob_tools.capture_from_pcap import main

if __name__ == "__main__":
    sys.exit(main())
