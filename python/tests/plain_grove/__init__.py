"""Grove a second time, in plain Python: slow, short, and apart from the library, so that one can be held against the other."""
