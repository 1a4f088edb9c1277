"""Vectors of the RFCs for the encoders of `wire` and of the reference model."""
