#!/usr/bin/env python3
"""Exercise 1: all variables are at home, and visit a register where an instruction wants that."""

from paths import answer, home

if __name__ == "__main__":
    answer(home)
