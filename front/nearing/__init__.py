"""What near.py is made of: report and numbers, how often a change fits into a range, and a search for other changes."""
