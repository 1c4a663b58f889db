"""Android's own traces: what was asked, as a scene, and what was shown, as Winscope reads it."""
