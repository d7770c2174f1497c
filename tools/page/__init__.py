"""Draws a listing, or a job shown by replay, as the sheet it describes."""
