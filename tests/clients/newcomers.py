"""Twenty lines that a newcomer types. Each goes wrong, and two queries lead to the cause: the error, and one more."""
from support.checking import Failure, same
from support.sessions import session

HEADERS = "SYST:HELP:HEAD?"
SCAN = "DIAG:SCAN:CHEC?"
UNDEFINED = '-113,"Undefined header"'
CONFLICT = '-221,"Settings conflict"'
MISSING = '-241,"Hardware missing"'

# What is typed before the line, the line, the error that it queues, the second query, and what its answer has.
LINES = [
    # words that the instrument doesn't know
    ("", "IDN?", UNDEFINED, HEADERS, "*IDN?/qonly/"),
    ("", "ROUT:CLOSED (@1!1)", UNDEFINED, HEADERS, ":ROUTe:CLOSe\n"),
    ("", "MEAS:VOLT? (@101)", UNDEFINED, HEADERS, ":READ?/qonly/"),
    # lists
    ("", "ROUT:CLOS 101", '-104,"Data type error"', "DIAG:CLOS:CHEC? (@101)", '"ok"'),
    ("", "ROUT:CLOS (101)", '-171,"Invalid expression"', "DIAG:CLOS:CHEC? (@101)", '"ok"'),
    ("", "ROUT:CLOS (@17!1)", '-222,"Data out of range"', "DIAG:CLOS:CHEC? (@16!1)", '"no such channel: (@16!1)"'),
    # closings
    ("", "ROUT:CLOS (@501)", MISSING, "DIAG:CLOS:CHEC? (@501)", '"no such channel: (@5!1)"'),
    ("", "ROUT:OPEN (@2!17)", MISSING, "DIAG:CLOS:CHEC? (@2!17)", '"no such channel: (@2!17)"'),
    ("", "ROUT:CLOS (@101:105)", CONFLICT, "DIAG:CLOS:CHEC? (@101:105)", '"of one group: (@1!2,1!1)"'),
    ("ROUT:CLOS (@1!3)", "ROUT:CLOS (@3!1)", CONFLICT, "DIAG:CLOS:CHEC? (@3!1)", '"of one group: (@3!1,1!3)"'),
    ("ROUT:SCAN (@1!1);:TRIG:SOUR BUS;:INIT", "ROUT:CLOS (@2!1)", CONFLICT, "DIAG:CLOS:CHEC? (@2!1)", '"a scan runs"'),
    # scans
    ("", "INIT", CONFLICT, SCAN, '"refused 1 EmptyList: nothing is listed (ROUTe:SCAN)"'),
    ("ROUT:SCAN (@1!1,9!1);:TRIG:COUN 2", "READ?", MISSING, SCAN, '"refused 2 NoChannel: no such channel: 9!1"'),
    ("ROUT:SCAN (@1!1);:ROUT:SCAN:MET 3", "INIT", MISSING, SCAN,
     '"refused 3 NoMeter: no meter in slot 3 (ROUTe:SCAN:METer)"'),
    ("ROUT:CLOS (@3!1);:ROUT:SCAN (@2!1,1!1);:TRIG:COUN 2", "INIT", CONFLICT, SCAN,
     '"refused 4 GroupClash: closing 1!1 would join it with 3!1, both of group 1"'),
    ("ROUT:CLOS (@1!2);:ROUT:SCAN (@1!2)", "READ?", CONFLICT, SCAN, '"refused 4 GroupClash: 1!2 is closed already"'),
    ("ROUT:SCAN (@1!1&3!4)", "INIT", CONFLICT, SCAN,
     '"refused 4 GroupClash: closing 3!4 would join it with 1!1, both of group 1"'),
    ("ROUT:SCAN (@1!1:1!20);:ARM:COUN 100;:TRIG:COUN 20", "INIT", CONFLICT, SCAN,
     '"refused 5 TooManyReadings: 2000 readings, room for 1000 (TRACe:POINts)"'),
    ("ROUT:SCAN (@1!1);:TRIG:SOUR BUS;:INIT", "INIT", '-213,"Init ignored"', SCAN, '"a scan runs"'),
    ("", "FETC?", '-230,"Data corrupt or stale"', "TRAC:POIN:ACT?", "0"),
]


def twenty_lines_lead_to_their_causes(served):
    same("lines", len(LINES), 20)
    with session(served) as mainframe:
        for before, line, error, query, cause in LINES:
            mainframe.write("*RST;*CLS")
            if before:
                mainframe.write(before)
            mainframe.write(line)
            same(f"the error of {line}", mainframe.query("SYST:ERR?"), error)
            told = mainframe.query(query)
            if cause not in told:
                raise Failure(f"{line}: {query} answers {told}, and not {cause}")
        mainframe.write("*RST;*CLS")


CHECKS = [twenty_lines_lead_to_their_causes]
