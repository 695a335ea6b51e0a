"""Says what differs between two tables or two networks."""
