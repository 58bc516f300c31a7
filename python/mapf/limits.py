"""Limits on the numbers of a problem, of its texts and of a search, as docs/FORMATS.md and docs/USE.md have them."""

MOST_AGENTS = 200
GREATEST_SIDE = 2048
GREATEST_SUM = 1_999_999_800
MOST_SPLITS = 100_000
MOST_IMPROVEMENTS = 1_000_000
