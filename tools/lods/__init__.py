"""Levels of detail of a model, as files that other programs read."""
