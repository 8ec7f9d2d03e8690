"""A live call: its parties, cameras and screens."""
