"""The second machine: one world in plain Python, by the rules alone. `reference.py` beside this folder runs it."""
