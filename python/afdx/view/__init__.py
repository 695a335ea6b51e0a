"""Makes one page of pictures of a run."""
