"""The parts of cases/play."""
