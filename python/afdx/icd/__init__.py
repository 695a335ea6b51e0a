"""Makes the tables of a network from its interface control document (ICD)."""
