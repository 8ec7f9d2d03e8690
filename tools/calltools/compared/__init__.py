"""Calls in virtual time: these ends and other coders over the same losses, at the same bits on the wire."""
