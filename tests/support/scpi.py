"""What the program's commands answer, and texts that several checks send."""
IDENTITY = "OPENBENCH,SWM8,0,1.0"
NO_ERROR = '0,"No error"'
CONFLICT = '-221,"Settings conflict"'
MOST_READINGS = 100_000  # of a scan
ALL_READINGS = ",".join(f"{1 + n / 1_000_000_000:.9f}" for n in range(MOST_READINGS))
SCAN = "ROUT:SCAN (@1!1);:TRAC:POIN {count};:TRIG:COUN {count};:INIT;*OPC?"
LONG_SCAN = "TRIG:DEL {delay};:ROUT:SCAN (@1!1,2!3);:TRAC:POIN 100000;:ARM:COUN 10;:TRIG:COUN 10000;:INIT"
MOST_BODY = 4_096  # bytes of a macro's body
AVAILABLE = 16  # of the status byte: MAV
