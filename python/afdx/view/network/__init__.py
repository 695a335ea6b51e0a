"""Makes one page of pictures of a run of a network."""
