"""Reports for the tests, written by hand."""

# a client that runs empty
XRUN = """dmixlab 1
0 a open = ok PREPARED -
1 a write 64 = 64 RUNNING 0
2 card play 512 = 512 RUNNING 512
3 a write 64 = EPIPE avail 640 XRUN 512
3 a write 64 = EPIPE already XRUN 512
3 a prepare = ok PREPARED 512
3 a write 64 = 64 RUNNING 512
4 card play 32 = 32 RUNNING 544
segment a 0 64 64 0
segment a 64 576 64 0
played 0 544
end
"""

# a frame that the card played before it was committed, in the phase in which it was written
LATE = """dmixlab 1
0 a open = ok PREPARED -
1 a write 64 = 64 RUNNING 0
2 card play 256 = 256 RUNNING 256
2 a write 64 = EPIPE late 128 1 XRUN 192
segment a 0 64 64 1
played 0 256
end
"""

# a reader whose frame was stored over, and that goes on
OVERTAKEN = """dmixlab 1
0 r open = ok PREPARED -
1 r start = ok RUNNING 0
2 card play 64 = 64 RUNNING 64
3 r read 64 = 64 RUNNING 64
4 card play 320 = 320 RUNNING 384
4 r read 64 = EPIPE overtaken 64 0 XRUN 320
5 r prepare = ok PREPARED 320
5 r read 64 = EAGAIN RUNNING 384
6 card play 64 = 64 RUNNING 448
7 r read 64 = 64 RUNNING 448
run r 0 64
run r 384 64
played 0 448
end
"""

# an opening without a place, one of a file that doesn't fit, and a closing
REFUSED = """dmixlab 1
0 a open = ok PREPARED -
1 a write 64 = 64 RUNNING 0
1 a close = ok OPEN 0
1 b open = EBUSY 128 0 OPEN -
1 c open = EINVAL OPEN -
2 card play 128 = 128 RUNNING 128
2 b open = ok PREPARED -
3 a sync = EBADFD OPEN 0
segment a 0 64 64 0
played 0 128
end
"""

# a client that dies, and a card that is unplugged, on a later lap of its ring
GONE = """dmixlab 1
0 a open = ok PREPARED -
0 b open = ok PREPARED -
1 card play 256 = 256 RUNNING 1099511627264
1 a write 64 = 64 RUNNING 1099511627072
1 a die 0 = ok RUNNING 1099511627072
1 a drop = stopped RUNNING 1099511627072
2 card unplug = ok DISCONNECTED 1099511627264
3 b sync = ENODEV DISCONNECTED 1099511627264
segment a 0 1099511627136 64 0
played 1099511627008 256
end
"""

# a script without a line in its phases
EMPTY = "dmixlab 1\nplayed 0 0\nend\n"

ALL = {"xrun": XRUN, "late": LATE, "overtaken": OVERTAKEN, "refused": REFUSED, "gone": GONE, "empty": EMPTY}
