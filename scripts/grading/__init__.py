"""Grades of allocators: what is handed in, verdicts, what others come to, points and tables."""
