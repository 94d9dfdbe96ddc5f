"""The parts of tests/runlog: a log program beside the model."""
