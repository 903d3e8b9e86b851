"""Listings that `check` reads or refuses as a whole: the longest ones, and such as are no text."""


def the_longest_listing(program):
    head = b"scan 1\nmeter 4\n"
    program.check(["check"], head + b"pause 1\n" * 8_191 + b"halt\n", b"ok bound 8191 readings 0\n")
    program.check(["check"], head + b"read\n" * 8_193, b"line 8195: TooLong\n", 3,
                  b"line 8195: a listing has at most 8192 steps\n")
    program.check(["check"], head + b"halt\n" * 8_192, b"refused 6 BadNesting\n", 3,
                  b"line 4: a step stands behind `halt`\n")


def listings_of_bytes_that_are_no_text(program):
    remark = b"line 1: a listing begins with `scan` and its version, as `scan 1`, and a line feed\n"
    for typed in [b"\x00", b"\xff" * 100_000, b"\n" * 100_000]:
        program.check(["check"], typed, b"line 1: BadStep\n", 3, remark)


def a_listing_with_carriage_returns(program):
    remark = b"line %d: a line ends with a line feed alone, and here a carriage return stands before it\n"
    program.check(["check"], b"scan 1\r\nmeter 4\r\nhalt\r\n", b"line 1: BadStep\n", 3, remark % 1)
    program.check(["check"], b"scan 1\nmeter 4\nread\r\nhalt\n", b"line 3: BadStep\n", 3, remark % 3)


CHECKS = [the_longest_listing, listings_of_bytes_that_are_no_text, a_listing_with_carriage_returns]
