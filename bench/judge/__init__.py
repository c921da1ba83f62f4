"""The judge of wrong bodies, which bench/bodies.py runs: its turns, checks and verdicts, the sources and edits, and its own test."""
