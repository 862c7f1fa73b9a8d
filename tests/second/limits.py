"""01's limits and 02's, each once."""

MOST_PLACES = 16
MOST_TRANSITIONS = 64
MOST_CLAIMS = 32
MOST_WEIGHT = 9
MOST_TOKENS = 65_535  # of a start, a target or a walk
MOST_KIND = 1
MOST_COEFFICIENT = 100
MOST_CONSTANT = 5_000
AREA_SIZE = 20_000  # entries that each work area must have
MOST_SHOWN = 20_000  # tokens of a shown bad marking in any place
MOST_FIRINGS = 64  # of a list, by 02
