"""How much in a log is usual and how much shows something, each number with one owner: tools/generate-messages writes the same for the
page."""

# The most addresses that are those of stations: more are counts or the like. One answer in so many may have another address than the
# command above. A silent station has so many frames, at least one in so many: fewer may have a digit that is wrong.
STATIONS = {'most': 32, 'odd': 8, 'silent': 4, 'share': 64}
