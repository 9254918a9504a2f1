"""Positions in a text that changed: where a word of the old text stands in the new one, and the
other way about.

The method is a patience diff over lines, then over the tokens of changed lines, with rules that
leave out what could be wrong: no answer is better than that of another word.
"""
