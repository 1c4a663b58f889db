"""Judges other compositors: what they show against what a scene's play shows."""
