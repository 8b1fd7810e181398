"""The definitions of crates/pager_model/specs/ as a slow checker in plain Python, one function a rule.

It is written apart from the program, shares no code with it, and finds everything anew by the rule, on sets and dictionaries. A function's
text says its rule in the words of docs/model.md, and in brackets the file of crates/pager_model/specs/ that has its definition.
"""
