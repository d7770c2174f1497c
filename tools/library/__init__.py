"""The library as tools/elements and tools/cut ask it: loaded or in a process of its own, one element after the other."""
