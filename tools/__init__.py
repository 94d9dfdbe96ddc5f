"""Logs as readable text, explained and drawn."""
