"""Scan programs over a served program: what is taken, what runs, and what is refused."""
from swm import ScanError

from support.checking import Failure, same
from support.scan_programs import HELD, code
from support.scpi import CONFLICT, NO_ERROR
from support.sessions import session
from support.transcripts import listings

SYNTAX = '-285,"Program syntax error"'
NO_CHANNEL = '-241,"Hardware missing"'
IGNORED = '-211,"Trigger ignored"'
NONE = "#10"
STANDING = "DIAG:SCAN:BOUN?;:ROUT:SCAN:PROG:STAT?"
SAMPLES = "scan 2\nmeter 4\nclose 1!1\npause 10000\nread\nread\nread\nopen 1!1\nhalt\n"
TRIGGERED = "scan 2\nmeter 4\nclose 1!1\nwait trig\nread\nopen 1!1\nhalt\n"
CLASHING = "scan 2\nmeter 4\nclose 1!1\nclose 3!1\nread\nopen 3!1\nopen 1!1\nhalt\n"


def block(text):
    return f"#{len(str(len(text)))}{len(text)}{text}"


def nested(counts, *steps):
    """The steps in loops with these counts, the first outside."""
    sets = [f"set {k} {count}" for k, count in enumerate(counts)]
    loops = [f"loop {k} {k + 1}" for k in reversed(range(len(counts)))]
    return code(*sets, *steps, *loops, "halt")


def refuses_to_load(mainframe, text, error):
    """The listing is refused by this error, and the program that was there stays."""
    before = mainframe.query("ROUT:SCAN:PROG?;:ROUT:SCAN:PROG:STAT?")
    try:
        mainframe.load_program(text)
    except ScanError as fault:
        same(f"why {text!r} is refused", fault.errors, [error])
        same("the program before", mainframe.query("ROUT:SCAN:PROG?;:ROUT:SCAN:PROG:STAT?"), before)
        return
    raise Failure(f"{text!r} is taken")


def refuses_to_begin(mainframe, text, error):
    """The listing is taken, and a scan of it is refused by this error."""
    mainframe.load_program(text)
    same("no scan", mainframe.query("INIT;:SYST:ERR:ALL?"), error)


def differences(readings):
    return [round((reading - readings[0]) * 1e9) for reading in readings]


def reads_thrice_for_one_closing(served):
    """One pause and three readings are awaited."""
    with session(served) as mainframe:
        mainframe.write("*RST")
        mainframe.load_program(SAMPLES)
        same("what is awaited", mainframe.query("DIAG:SCAN:BOUN?"), "4")
        same("three readings", differences(mainframe.read_scan()), [0, 1, 2])
        same("relays", mainframe.query("ROUT:CLOS:STAT?;:SYST:ERR?;*RST"), f"(@);{NO_ERROR}")


def holds_a_channel_over_nested_readings(served):
    with session(served) as mainframe:
        mainframe.write("*RST")
        mainframe.load_program(code(*HELD))
        same("what is awaited", mainframe.query("DIAG:SCAN:BOUN?"), "6")
        same("six readings", differences(mainframe.read_scan()), [0, 1, 2, 3, 4, 5])
        same("relays", mainframe.query("ROUT:CLOS:STAT?;:SYST:ERR?;*RST"), f"(@);{NO_ERROR}")


def gives_the_program_back(served):
    """As the newest version; `*RST` drops it."""
    with session(served) as mainframe:
        mainframe.write("*RST")
        same("none", mainframe.query("ROUT:SCAN:PROG?;:ROUT:SCAN:PROG:DEF?;STAT?"), f"{NONE};{NONE};0")
        mainframe.load_program(SAMPLES)
        same("the same", mainframe.query("ROUT:SCAN:PROG:DEF?;STAT?"), f"{block(SAMPLES)};1")
        same("by the client", mainframe.program(), SAMPLES)
        mainframe.load_program(code("read", "halt", version=1))
        same("version 2", mainframe.program(), code("read", "halt"))
        mainframe.write("*CLS;:ABOR")
        same("kept", mainframe.program(), code("read", "halt"))
        same("dropped", mainframe.query("*RST;:ROUT:SCAN:PROG?;PROG:STAT?"), f"{NONE};0")
        same("by the client", mainframe.program(), "")
        same("errors", mainframe.query("SYST:ERR?"), NO_ERROR)


def refuses_what_is_no_program(served):
    """Texts that are no listing, loops that do nothing, too many items, nothing awaited; a step too many is -223."""
    with session(served) as mainframe:
        mainframe.write("*RST")
        mainframe.load_program(code(*HELD))
        for text in [
            code("close 1!1", "closs 1!1", "read", "halt"), "", "scan 3\nmeter 4\nread\nhalt\n",
            code("set 4 1", "halt"), code("set 0 5", "loop 0 1", "read", "halt"), nested([100_000] * 4, "read"),
            code("halt"), code("close 1!1", "open 1!1", "halt"), code("set 0 2", "read", "halt"),
            code("set 0 2", "read", "loop 0 0", "halt"),
        ]:
            refuses_to_load(mainframe, text, SYNTAX)
        refuses_to_load(mainframe, code(*["read"] * 8_193), '-223,"Too much data"')
        mainframe.load_program(nested([100_000] * 3, "pause 1"))
        same("what can be numbered", mainframe.query("DIAG:SCAN:BOUN?"), str(100_000**3))
        mainframe.write("*RST")


def is_judged_on_the_present_cards(served):
    with session(served) as mainframe:
        mainframe.write("*RST")
        refuses_to_begin(mainframe, CLASHING, CONFLICT)
        refuses_to_begin(mainframe, code("close 9!1", "read", "open 9!1", "halt"), NO_CHANNEL)
        refuses_to_begin(mainframe, code("set 0 2", "read", "close 1!1", "loop 0 1", "halt"), CONFLICT)
        mainframe.write("TRAC:POIN 2")
        refuses_to_begin(mainframe, SAMPLES, CONFLICT)
        mainframe.write("TRAC:POIN 3;:ROUT:CLOS (@3!2)")
        refuses_to_begin(mainframe, SAMPLES, CONFLICT)
        same("opened", mainframe.query("ROUT:OPEN:ALL;:INIT;*OPC?;:SYST:ERR?"), f"1;{NO_ERROR}")
        mainframe.write("*RST")


def is_checked_as_by_check(served):
    """Each listing of the table, on the same cards; the line of a fault isn't told twice."""
    with session(served) as mainframe:
        mainframe.write("*RST;:TRAC:POIN 100000")
        for _, (listing, line, *causes) in listings():
            place = line.split(":")[0] + ": "
            told = ": ".join([line, *(cause.removeprefix(place) for cause in causes)])
            same(f"what is said of {listing!r}", mainframe.check_program(listing), told)
        same("no program, no error", mainframe.query("ROUT:SCAN:PROG?;:SYST:ERR?"), f"{NONE};{NO_ERROR}")


def is_checked_as_the_cage_is(served):
    """With channels closed, with little room, and while a scan runs; a double quote comes back as one."""
    quoted = code('close "1"')
    with session(served) as mainframe:
        mainframe.write("*RST;:ROUT:CLOS (@3!2,2!1);:TRAC:POIN 2")
        clash = "refused 4 GroupClash: line 3: closing 1!1 would join it with 3!2, both of group 1"
        same("closed before", mainframe.check_program(SAMPLES), clash)
        closed = "refused 4 GroupClash: line 3: 2!1 is closed already"
        same("closed already", mainframe.check_program(code("close 2!1", "halt")), closed)
        foreign = "refused 9 NotClosed: line 3: the scan has not closed 2!1"
        same("not its own", mainframe.check_program(code("open 2!1", "halt")), foreign)
        same("none else", mainframe.check_program(code("close 2!2", "open 2!2", "halt")), "ok bound 0 readings 0")
        mainframe.write("ROUT:OPEN:ALL")
        full = "refused 5 TooManyReadings: it makes more than 2 readings"
        same("too many", mainframe.check_program(SAMPLES), full)
        mainframe.write("*RST;:ROUT:SCAN (@1!1);:ROUT:CHAN:DEL 60;:INIT")
        closed = "refused 4 GroupClash: line 3: 1!1 is closed already"
        same("in a scan", mainframe.check_program(TRIGGERED), closed)
        mainframe.write("*RST")
        fault = mainframe.check_program(quoted)
        same("quotes", (fault[:19], '"1' in fault), ("line 3: BadNumber: ", True))
        for data, error in [("5", '-104,"Data type error"'), ("#10,#10", '-108,"Parameter not allowed"')]:
            mainframe.write(f"DIAG:SCAN:CHEC? {data}")
            same(data, mainframe.query("SYST:ERR:ALL?"), error)
        same("alone", mainframe.query("DIAG:SCAN:CHEC?"), '"refused 1 EmptyList: nothing is listed (ROUTe:SCAN)"')


def waits_as_the_layer_says(served):
    """With IMMediate nothing but SIGNal would ever pass the wait: no scan begins."""
    with session(served) as mainframe:
        mainframe.write("*RST")
        refuses_to_begin(mainframe, TRIGGERED, CONFLICT)
        by_bus = mainframe.query("TRIG:SOUR BUS;:INIT;:STAT:OPER:COND?;*TRG;*WAI;:STAT:OPER:COND?")
        same("by the bus", by_bus, "32;0")
        by_signal = mainframe.query("TRIG:SOUR HOLD;:INIT;*TRG;:TRIG:SIGN;*OPC?;:SYST:ERR:ALL?")
        same("by a signal", by_signal, f"1;{IGNORED}")
        by_timer = mainframe.query("TRIG:SOUR TIM;:INIT;:TRIG:SIGN;*OPC?;:SYST:ERR?")
        same("no timer is in the program", by_timer, f"1;{NO_ERROR}")
        mainframe.write("*RST")


def is_switched_and_deleted(served):
    with session(served) as mainframe:
        mainframe.write("*RST")
        none = mainframe.query("ROUT:SCAN:PROG:STAT ON;:SYST:ERR?;:ROUT:SCAN:PROG:STAT OFF;STAT?;:SYST:ERR?")
        same("none to switch on", none, f"{CONFLICT};0;{NO_ERROR}")
        mainframe.load_program(SAMPLES)
        mainframe.write("ROUT:SCAN (@2!1);:ROUT:SCAN:PROG:STAT OFF")
        same("by the settings", (len(mainframe.read_scan()), mainframe.query(STANDING)), (1, "1;0"))
        mainframe.write("ROUT:SCAN:PROG:STAT 1")
        same("by the program", (len(mainframe.read_scan()), mainframe.query(STANDING)), (3, "4;1"))
        deleted = mainframe.query("ROUT:SCAN:PROG:DEL;:ROUT:SCAN:PROG?;PROG:STAT?;:SYST:ERR?")
        same("deleted", deleted, f"{NONE};0;{NO_ERROR}")
        same("by the settings", len(mainframe.read_scan()), 1)
        mainframe.write("*RST")


def stays_while_a_scan_runs(served):
    with session(served) as mainframe:
        mainframe.write("*RST;:TRIG:SOUR BUS")
        mainframe.load_program(TRIGGERED)
        mainframe.write("INIT")
        for command in [f"PROG {block(SAMPLES)}", "PROG:STAT OFF", "PROG:DEL"]:
            same(command, mainframe.query(f"ROUT:SCAN:{command};:SYST:ERR?"), CONFLICT)
        kept = mainframe.query("ROUT:SCAN:PROG?;PROG:STAT?;:ABOR;:ROUT:CLOS:STAT?")
        same("the same", kept, f"{block(TRIGGERED)};1;(@)")
        mainframe.write("*RST")


def opens_all_where_it_is_broken_off(served):
    """Wherever it waits, ABORt opens what the program closed."""
    text = code("close 1!1", "wait trig", "set 0 2", "close 2!1", "wait trig", "open 2!1", "loop 0 3", "open 1!1",
                "wait trig", "halt")
    with session(served) as mainframe:
        mainframe.write("*RST;:TRIG:SOUR BUS")
        mainframe.load_program(text)
        for passed, closed in enumerate(["(@1!1)", "(@1!1,2!1)", "(@1!1,2!1)", "(@)"]):
            mainframe.write("INIT" + ";*TRG" * passed)
            told = mainframe.query("ROUT:CLOS:STAT?;:STAT:OPER:COND?;:ABOR;:ROUT:CLOS:STAT?")
            same(f"after {passed}", told, f"{closed};32;(@)")
        same("errors", mainframe.query("SYST:ERR?;*RST"), NO_ERROR)


def is_refused_as_data(served):
    """Data of another kind, none, or too many; a block that holds other bytes."""
    with session(served) as mainframe:
        for data, error in [(" 5", '-104,"Data type error"'), ("", '-109,"Missing parameter"'),
                            (' #10,#10', '-108,"Parameter not allowed"'), (":STAT", '-109,"Missing parameter"'),
                            (":STAT BUS", '-224,"Illegal parameter value"'),
                            (":DEL 1", '-108,"Parameter not allowed"')]:
            mainframe.write(f"*RST;:ROUT:SCAN:PROG{data}")
            same(data, mainframe.query("SYST:ERR:ALL?"), error)


def takes_a_long_listing(served):
    """8,161 steps of 65,300 bytes in one message: 2,720 readings, each of its own closing."""
    steps = [step for _ in range(2_720) for step in ("close 1!1", "read", "open 1!1")]
    with session(served) as mainframe:
        mainframe.write("*RST;:TRAC:POIN 2720")
        mainframe.load_program(code(*steps, "halt"))
        same("readings", differences(mainframe.read_scan()), list(range(2_720)))
        same("errors", mainframe.query("*RST;:SYST:ERR?"), NO_ERROR)


CHECKS = [
    reads_thrice_for_one_closing, holds_a_channel_over_nested_readings, gives_the_program_back,
    refuses_what_is_no_program, is_judged_on_the_present_cards, is_checked_as_by_check, is_checked_as_the_cage_is,
    waits_as_the_layer_says, is_switched_and_deleted,
    stays_while_a_scan_runs, opens_all_where_it_is_broken_off, is_refused_as_data, takes_a_long_listing,
]
