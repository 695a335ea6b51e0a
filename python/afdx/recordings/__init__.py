"""Reads recordings: pcap and pcapng, compressed or not, a piece at a time."""
