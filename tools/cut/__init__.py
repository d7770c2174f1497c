"""Cuts the parts of a job into pieces that the area takes, by what the library answers."""
