#!/usr/bin/env python3
"""Prints what a page says of one of its procedures (picture/facts.py), for ./pra facts."""

import sys

import stopped
from picture.facts import main

if __name__ == "__main__":
    sys.exit(stopped.status_of(lambda: main(sys.argv[1:])))
