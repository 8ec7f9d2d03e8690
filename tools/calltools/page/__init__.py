"""One HTML page of a call."""
