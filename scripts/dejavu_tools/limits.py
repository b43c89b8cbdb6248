"""The greatest numbers that docs/formats.md and docs/language.md state of sources and files."""

MOST_SOURCE_BYTES = 1_048_576
MOST_SUITE_BYTES = 16_777_216
MOST_FILE_BYTES = 134_217_728  # of a history or a certificate

MOST_TESTS = 8_192
MOST_NAME = 64  # characters
MOST_BUDGET = 10_000_000  # turns
MOST_INPUT = 16_384  # bytes
MOST_OUTPUT = 16_384  # bytes
MOST_STATUS = 255  # of an exit

MOST_EDGES = 10_000
MOST_FRAMES = 256
MOST_PAIRS = 100_000_000
