"""Real runs of the server over loopback, by plain clients of Python's standard library."""
