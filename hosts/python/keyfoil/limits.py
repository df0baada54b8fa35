"""The sizes of a sheet and of its lists, in places: entries, strips, corners, nets, bytes."""

# the foils of a sheet, and the places of the table that they share
FOILS = 8
PLACES = 512
# the entries that a foil may have, and those that it is sure of whatever the others have
ENTRIES = 128
SURE = 32
# the strips that a foil may have
STRIPS = 4096
# the corners that are enough for any lay or find, and for a join unless its net cannot be lifted (11)
CORNERS = 8192
# the nets of a list at most, and those that a report of a carry must have room for
WISHES = 40
REPORT = 128
# the bytes of the longest saved foil, and of the longest slip: a line of 33 for each net
FILE_BYTES = 12 + 11 * ENTRIES
SLIP_LINE = 33
SLIP_BYTES = SLIP_LINE * ENTRIES
# the bytes of stack that are enough for any call: threading.stack_size(STACK) before a thread is started
STACK = 2 * 1024 * 1024
# the largest of a call's 16-bit numbers
MOST = 0xFFFF
