"""Records: how they are read, told as text, summed up, and shown as pictures, videos and timelines."""
