"""Runs that are made by chance, from fixed seeds, and what spoils them."""
