"""Whole calls of the compiler, each held against what a row of tests/ says of it."""
