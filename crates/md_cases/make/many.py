"""The last cases of the group `attacks`: nine thousand brackets on each way into the text.

They stand at the end, since they are most of the answers. `bench/cases.py` makes them.
"""
from attacks import cases_of, ways_as_text, ways_of_data, ways_of_options
from media import ways_of_autolinks

MANY = "<" * 9000


def sections():
    """The runs of cases that this makes, each by what its titles begin with."""
    return {"attacks: many angle brackets": [
        case for ways in (ways_as_text, ways_of_data, ways_of_autolinks, ways_of_options)
        for case in cases_of("many angle brackets: 9,000", MANY, ways())]}
