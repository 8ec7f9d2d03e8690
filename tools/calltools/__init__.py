"""What the tools share: the formats of docs/FORMATS.md, captures, the loss model and drawings."""
