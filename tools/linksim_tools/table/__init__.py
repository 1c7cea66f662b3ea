"""Shift tables: how they are read and told apart."""
