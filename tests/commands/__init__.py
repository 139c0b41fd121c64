"""The commands for users."""

# More than 65,536 rules match a packet of INPUT: 1 rule of INPUT, 2 + 4 + .. + 32,768 of the chains, and 2 of INPUT.
LONG_WALK = b"\n".join([b"*filter", *(b":c%d -" % number for number in range(16)), b"-A INPUT -j c0", b"-A INPUT", b"-A INPUT -j ACCEPT",
                        *[b"-A c%d -j c%d" % (number, number + 1) for number in range(15)] * 2, b"COMMIT", b""])
