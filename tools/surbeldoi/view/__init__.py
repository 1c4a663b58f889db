"""A page to look into a run, for a browser."""
