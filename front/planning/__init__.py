"""What a plan is made of, and what is near a question: public columns and `auditor simulate`, and nothing else.

Nothing here is proved, and no secret depends on it: no secret column is read.
"""
