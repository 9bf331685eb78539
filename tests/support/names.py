"""Names of all lengths, for random calls on sets and sorted sets."""

# one of up to 23 bytes lies in the order itself, a longer one takes memory of its own
LENGTHS = (0, 3, 15, 16, 17, 22, 23, 24, 31)
# what a name is filled up with: zeros stand behind a short one in its place, too, and the digit makes one name the beginning of another
FILLS = (b"\0", b"0", b"m")


def name_of(place):
    """The name with this number: its digits, filled up to some length. Two of them may be the same."""
    return (b"%d" % place).ljust(LENGTHS[place % len(LENGTHS)], FILLS[place // len(LENGTHS) % len(FILLS)])
