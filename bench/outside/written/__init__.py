"""The repository's definitions as they stand, one function for each, under the same names.

A section names the file of specs/ from which its functions come. An option is a value or None; a result is a pair
of "ok" or "err" and a value. A past is a chain, the newest first, whose empty end is None.
"""
