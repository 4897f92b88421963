"""The parts of the front door, a file for each. `door.py` beside this folder starts it."""
