"""The tests of the parts beside the proof."""
