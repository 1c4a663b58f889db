"""Whether records mean what a scene allows."""
