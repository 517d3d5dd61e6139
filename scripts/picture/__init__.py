"""The page that shows how one module was allocated: see show.py."""
