"""A separate model of document 01 and Papers 1 to 5 of 02; what every command on logs shares."""

from pathlib import Path

ROOT = Path(__file__).resolve().parent.parent  # of the repository
