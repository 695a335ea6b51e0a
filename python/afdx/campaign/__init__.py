"""Runs the program over thousands of recordings, on one machine or on a cluster."""
