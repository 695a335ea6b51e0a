"""Compares what the two networks deliver of the same frames."""
