"""Scripts: their words and forms, the scenes that they describe, and the fault of one that is none."""
