"""A class in a browser: `class`."""
