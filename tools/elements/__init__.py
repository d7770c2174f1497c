"""Prints a part as its elements, by what the library answers for each of them."""
