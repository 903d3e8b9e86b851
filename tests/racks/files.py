"""A rack's file: each fault is one line with its place, and nothing is opened."""
from support import EXAMPLES
from support.checking import Failure, same

CARD = '[slot.1]\ncard = "relays"\ndriver = "simulated"\nchannels = 8\n'
BOARD = '[slot.1]\ncard = "relays"\ndriver = "modbus-tcp"\nchannels = 8\naddress = "127.0.0.1:1"\n'
LINES = '[slot.1]\ncard = "relays"\ndriver = "lines"\nchannels = 8\ndevice = "/dev/null"\n'
DRIVERS = '"simulated", "modbus-tcp", "modbus-rtu", "lines" or "scpi"'

# What stands behind `version = 1`, and what is wrong with it.
FAULTS = [
    (CARD + CARD, "line 6: duplicate key"),
    ("", "no card: a card for slot 1 is a table `[slot.1]`"),
    ("[slots.1]\n", "line 2: unknown key `slots`"),
    ("[slot.17]\n", "line 2: `17` is no slot: slots are 1 to 16"),
    ("[slot.01]\n", "line 2: `01` is no slot: slots are 1 to 16"),
    ("slot.1 = 3\n", "line 2: slot 1: `1` is a table, as `[slot.1]`"),
    (CARD + "chanels = 8\n", "line 6: slot 1: unknown key `chanels`"),
    ('[slot.1]\ncard = "relays"\ndriver = "simulated"\n', "line 2: slot 1: `channels` is missing"),
    (CARD.replace("8", '"8"'), "line 5: slot 1: `channels` is a whole number, not string"),
    (CARD.replace("8", "8.5"), "line 5: slot 1: `channels` is a whole number, not float"),
    (CARD.replace("8", "100"), "line 5: slot 1: `channels` is from 1 to 99, not 100"),
    (CARD + "group = 256\n", "line 6: slot 1: `group` is from 0 to 255, not 256"),
    (CARD + "group = 1\ngroups = [1, 1, 1, 1, 1, 1, 1, 1]\n", "line 2: slot 1: either `group` or `groups` is wanted"),
    (CARD + "groups = [1, 2]\n", "line 6: slot 1: `groups` has 2 numbers for 8 channels"),
    (BOARD.replace("-tcp", ""), f'line 4: slot 1: `driver` is {DRIVERS}, not "modbus"'),
    (BOARD + "first_coil = 65530\n", "line 7: slot 1: `first_coil`: the last channel's coil would be 65537, above 65535"),
    (BOARD.replace('address = "127.0.0.1:1"\n', ""), "line 2: slot 1: `address` is missing"),
    (LINES + 'on = "relay {n}"\noff = "off"\nall_off = "off"\n',
     "line 7: slot 1: `on`: within braces stand ch, ch0, ch:02, ch0:X or the like"),
]


def each_fault_is_one_line(program, folder):
    path = folder / "rack.toml"
    for text, told in FAULTS:
        path.write_text(f"version = 1\n{text}")
        for words in (["run", "--rack"], ["serve", "--port", "1", "--rack"], ["check", "--rack"], ["rack"], ["off", "--rack"]):
            program.check([*words, str(path)], b"*IDN?\n", b"", 2, f"mainframe: {path}: {told}\n".encode())


def a_file_begins_with_its_version(program, folder):
    path = folder / "rack.toml"
    for text in ("", CARD, f"version = 2\n{CARD}"):
        path.write_text(text)
        done = program.run(["rack", str(path)])
        same("status", done.returncode, 2)
        if b"the file begins with `version = 1`\n" not in done.stderr:
            raise Failure(f"{text!r}: {done.stderr!r}")


def a_file_is_read_or_said_to_be_missing(program, folder):
    missing = folder / "none.toml"
    program.check(["rack", str(missing)], b"", b"", 2,
                  f"mainframe: {missing}: No such file or directory (os error 2)\n".encode())
    broken = folder / "rack.toml"
    broken.write_bytes(b"version = 1\n# \xff\n")
    program.check(["rack", str(broken)], b"", b"", 2,
                  f"mainframe: {broken}: stream did not contain valid UTF-8\n".encode())


def lines_may_end_in_cr_lf(program, folder):
    path = folder / "rack.toml"
    path.write_bytes(f"version = 1\n{CARD}".replace("\n", "\r\n").encode())
    program.check(["rack", str(path)], b"", b"slot 1: relays, 8 channels, simulated: reached\n")


def fuses_are_of_simulated_cards(program, folder):
    path = folder / "rack.toml"
    path.write_text(f"version = 1\n{CARD}")
    same("status", program.run(["run", "--fuse", "1", "--rack", str(path)]).returncode, 2)


def a_simulated_rack_is_the_program_without_a_file(program, folder):
    """The example of simulated cards answers as the program does without a file."""
    path = str(EXAMPLES / "racks/simulated.toml")
    typed = b"ROUT:CLOS (@1!3,2!1);CLOS? (@3!1);CLOS:STAT?\nROUT:CLOS (@3!1);:SYST:ERR?\n*RST;:ROUT:SCAN (@1!1,3!2);" \
            b":TRIG:COUN 3;:READ?\nROUT:CLOS (@1!21);:SYST:ERR?\n"
    told = program.run(["run"], typed).stdout
    same("answers", program.run(["run", "--rack", path], typed).stdout, told)
    same("the first", told.splitlines()[0], b"0;(@1!3,2!1)")


def examples_have_their_channels(program, folder):
    """The last channel of each relay card of an example may be closed, and none behind it."""
    for name, cards in [("bench", [(1, 8)]), ("line", [(1, 16), (2, 4)]), ("simulated", [(1, 20), (2, 16), (3, 10)])]:
        words = ["check", "--rack", str(EXAMPLES / f"racks/{name}.toml")]
        for slot, last in cards:
            listing = "scan 2\nmeter 4\nclose {0}\nread\nopen {0}\nhalt\n"
            program.check(words, listing.format(f"{slot}!{last}").encode(), b"ok bound 1 readings 1\n")
            same("one too high", program.run(words, listing.format(f"{slot}!{last + 1}").encode()).stdout,
                 b"refused 2 NoChannel\n")


def a_listing_is_judged_by_the_rack(program, folder):
    path = folder / "rack.toml"
    path.write_text(f'version = 1\n{CARD}group = 7\n[slot.9]\ncard = "meter"\ndriver = "simulated"\n')
    words = ["check", "--rack", str(path)]
    program.check(words, b"scan 2\nmeter 9\nclose 1!8\nread\nopen 1!8\nhalt\n", b"ok bound 1 readings 1\n")
    for listing, told in [(b"scan 2\nmeter 9\nclose 1!9\nread\nopen 1!9\nhalt\n", b"refused 2 NoChannel\n"),
                          (b"scan 2\nmeter 4\nread\nhalt\n", b"refused 3 NoMeter\n"),
                          (b"scan 2\nmeter 9\nclose 1!1&1!8\nread\nopen 1!1&1!8\nhalt\n", b"refused 4 GroupClash\n")]:
        done = program.run(words, listing)
        same("answer", done.stdout, told)
        same("status", done.returncode, 3)


CHECKS = [each_fault_is_one_line, a_file_begins_with_its_version, a_file_is_read_or_said_to_be_missing,
          lines_may_end_in_cr_lf, fuses_are_of_simulated_cards, a_simulated_rack_is_the_program_without_a_file,
          examples_have_their_channels, a_listing_is_judged_by_the_rack]
