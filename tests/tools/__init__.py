"""The parts of tests/tools/run: explain, draw and the other tools."""
