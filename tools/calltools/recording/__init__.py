"""The folder of a recorded call, written and read."""
