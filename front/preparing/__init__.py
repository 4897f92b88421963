"""What prepare.py is made of: from a CSV file as people have it to the files that auditor reads.

No proof rests on any of it. The program reads what is written here by its own rules, and refuses what isn't a table.
"""
