"""What ask.py is made of: a line as a person types it, the question to the program, and its reply in words.

It reads the schema, the public columns, and what the program replies. Of a table that has secret columns too, in a folder
without public/, it keeps none of them.
"""
