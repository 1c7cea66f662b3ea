"""Curves of block error rates."""
