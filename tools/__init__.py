"""The parts of ./check, a topic each."""
