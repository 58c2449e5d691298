"""What the tools share: faults in one line, notes on what was left out, progress, and writing JSON."""
