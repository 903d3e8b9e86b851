"""The panel's page and what it tells of a served program, by its own HTTP answers and, where a browser is installed, as
that draws it; and that it leaves no trace."""
import contextlib
import http.client
import json
import pathlib
import re
import shutil
import subprocess
import sys
import tempfile

import panel

from support import EXAMPLES
from support.checking import PATIENCE, Failure, same, wait_until
from support.server import Served

AT_REST = "no scan runs, or one pauses"
AWAITS_TRIGGER = "waits for a trigger (`*TRG`) in the TRIGger layer"
BROWSERS = ("chromium", "chromium-browser", "google-chrome")


class Page:
    """The panel as a process."""

    def __init__(self, port, *words):
        arguments = [sys.executable, EXAMPLES / "panel.py", "--port", str(port), "--page", "0", *words]
        self.process = subprocess.Popen(arguments, stdout=subprocess.PIPE, text=True)
        self.port = int(re.search(r"127\.0\.0\.1:(\d+)/", self.process.stdout.readline())[1])

    def ask(self, path, method="GET", **headers):
        """The status and the text of an HTTP answer."""
        connection = http.client.HTTPConnection("127.0.0.1", self.port, timeout=PATIENCE)
        with contextlib.closing(connection):
            connection.request(method, path, headers=headers)
            answer = connection.getresponse()
            return answer.status, answer.read().decode()

    def seen(self):
        return json.loads(self.ask("/state")[1])

    def comes_to_show(self, **wanted):
        wait_until(wanted, lambda: all(self.seen().get(name) == value for name, value in wanted.items()))

    def close(self):
        self.process.kill()
        self.process.wait()
        self.process.stdout.close()


def press(page):
    """Presses the button."""
    return page.ask("/errors", "POST", **{"X-Panel": "take"})[0]


def page_of(port, *words):
    return contextlib.closing(Page(port, *words))


def the_page_is_served(program):
    """The page answers a GET alone, and is to be had on loopback alone."""
    with Served(program) as served, page_of(served.port) as page:
        same("status", page.ask("/")[0], 200)
        same("another path", page.ask("/state/x")[0], 404)
        same("another method", [page.ask(path, "PUT")[0] for path in ("/", "/state")], [501, 501])
        same("a POST", [page.ask(path, "POST")[0] for path in ("/", "/state", "/errors")], [404, 404, 404])
        bound = pathlib.Path("/proc/net/tcp").read_text()
        same("where it is bound", re.findall(rf"(\S+):{page.port:04X} 00000000:0000 0A", bound), ["0100007F"])


def the_panel_finds_the_cards(program):
    """It asks the mainframe which there are, and each channel's group; a scan that runs and its meter are no matter."""
    cage = [{"slot": 1, "kind": "RELAY20", "groups": [1] * 20}, {"slot": 2, "kind": "RELAY16", "groups": [0] * 16},
            {"slot": 3, "kind": "RELAY10", "groups": [1] * 10}, {"slot": 4, "kind": "METER", "groups": []}]
    with Served(program) as served, served.join() as mainframe:
        mainframe.write("ROUT:SCAN (@1!1);:TRIG:SOUR BUS;:INIT")
        with page_of(served.port) as page:
            page.comes_to_show(state="connected", cards=cage, unsure=[])


def the_panel_shows_what_is(program):
    """Relays, a scan that waits, readings, errors and the status byte; what it asks leaves nothing behind."""
    with Served(program) as served, served.join() as mainframe, page_of(served.port) as page:
        page.comes_to_show(state="connected", closed=[], doing=AT_REST, errors=0, readings=[], status=0)
        mainframe.write("ROUT:CLOS (@2!3,3!10);CLOS (@1!1)")
        page.comes_to_show(closed=["2!3", "3!10"], errors=1, status=4)
        mainframe.write("*CLS;:ROUT:OPEN:ALL;:ROUT:SCAN (@1!2,3!4);:TRIG:COUN 2;SOUR BUS;:INIT;*TRG")
        page.comes_to_show(doing=AWAITS_TRIGGER, count=1, readings=[1.0], channels=["1!2"])
        mainframe.write("*TRG")
        page.comes_to_show(doing=AT_REST, count=2, readings=[1.0, 1.000000001], channels=["1!2", "3!4"])
        same("what it left", mainframe.query("SYST:ERR:COUN?;:STAT:OPER?;*ESR?"), "0;48;0")
        mainframe.write("TRIG:SOUR IMM;:ROUT:CHAN:DEL 3600;:INIT")
        page.comes_to_show(doing="is settling", closed=["1!2"], count=0)
        mainframe.write("*RST")
        page.comes_to_show(doing=AT_REST, closed=[], count=0, readings=[], errors=0)


def what_a_scan_waits_for_is_told(program):
    """By the source of each layer, TRIGger's or one or more of ARM's."""
    with Served(program) as served, served.join() as mainframe, page_of(served.port) as page:
        mainframe.write("ROUT:SCAN (@1!1)")
        for sources, told in [
            (":TRIG:SOUR HOLD", "its SIGNal in the TRIGger layer"),
            (":TRIG:SOUR EXT", "an external trigger in the TRIGger layer"),
            (":TRIG:SOUR TIM;TIM 3600", "its timer in the TRIGger layer"),
            (":ARM:LAY2:SOUR BUS", "a trigger (`*TRG`) in ARM layer 2"),
            (":ARM:LAY3:SOUR TIM;TIM 3600", "a trigger (`*TRG`) in ARM layer 2, or its timer in ARM layer 3"),
        ]:
            mainframe.write(f"{sources};:INIT")
            page.comes_to_show(doing=f"waits for {told}", count=0)
            mainframe.write("ABOR")
        same("errors", mainframe.query("*RST;:SYST:ERR:ALL?"), '0,"No error"')


def each_reading_has_its_channel(program):
    """Each round of ARM begins with the first position; a list that gives fewer readings names none of them."""
    with Served(program) as served, served.join() as mainframe, page_of(served.port) as page:
        mainframe.write("ROUT:SCAN (@1!1&2!1,3!2);:TRIG:COUN 3;:ARM:COUN 2;:INIT")
        page.comes_to_show(count=6, channels=["1!1&2!1", "3!2", "1!1&2!1"] * 2)
        mainframe.write("*WAI;:ROUT:SCAN (@2!1);:ARM:COUN 1;:TRIG:COUN 1100;:TRAC:POIN 1100;:INIT")
        page.comes_to_show(count=1_100, channels=["2!1"] * panel.MOST_PLOTTED)
    for held, scan, counts, told in [(1, "(@1!1,1!2)", (1, 1, 1, 1), ["1!1"]), (3, "(@1!1,1!2)", (2, 1, 1, 1), []),
                                     (4, "(@1!1,1!2)", (1, 2, 2, 1), ["1!1"] * 4),
                                     (5, "(@1!1,1!2)", (4, 1, 1, 2), ["1!1", "1!2", "1!1", "1!2", "1!1"])]:
        same(f"{held} of {scan}", panel.channels_of(held, scan, *counts), told)


def the_button_takes_the_errors(program):
    """It alone: their texts are shown, behind those before, and the queue is empty."""
    with Served(program) as served, served.join() as mainframe, page_of(served.port) as page:
        shown = []
        for lines, errors in [
            (["FOO", "ROUT:CLOS (@1!1,3!1)"], ['-113,"Undefined header"', '-221,"Settings conflict"']),
            (["*ESE 256"], ['-222,"Data out of range"']),
        ]:
            for line in lines:
                mainframe.write(line)
            page.comes_to_show(errors=len(errors), taken=shown)
            same("the button", press(page), 200)
            shown = shown + errors
            page.comes_to_show(errors=0, taken=shown)
            same("what is left", mainframe.query("SYST:ERR:COUN?"), "0")


def drawn(browser, page):
    """The page as a browser draws it after two seconds: the ids of lit channels, and each part's text by its id."""
    with tempfile.TemporaryDirectory() as profile:
        words = [browser, "--headless", "--no-sandbox", "--disable-gpu", f"--user-data-dir={profile}",
                 "--virtual-time-budget=2000", "--dump-dom", f"http://127.0.0.1:{page.port}/"]
        ran = subprocess.run(words, stdout=subprocess.PIPE, stderr=subprocess.DEVNULL, text=True, timeout=PATIENCE)
    if ran.returncode or "</html>" not in ran.stdout:
        raise Failure(f"the browser ends with status {ran.returncode}: {ran.stdout[:200]!r}")
    lit = re.findall(r'class="ch closed" id="([^"]+)"', ran.stdout)
    return lit, dict(re.findall(r'<(?:p|dd|span|ol)[^>]* ?id="(\w+)"[^>]*>(?:<li>)?([^<]*)<', ran.stdout))


def a_browser_draws_the_page(program):
    """Closed channels are lit, and what the scan waits for, its readings, the axes and the errors stand there."""
    browser = next(filter(None, map(shutil.which, BROWSERS)), None)
    if not browser:
        return
    with Served(program) as served, served.join() as mainframe, page_of(served.port) as page:
        mainframe.write("ROUT:CLOS (@2!3);:ROUT:SCAN (@1!2&2!1,3!4);:TRIG:COUN 2;SOUR BUS;:INIT;*TRG")
        mainframe.write("ROUT:CLOS (@3!1)")
        page.comes_to_show(doing=AWAITS_TRIGGER, count=1, errors=1)
        press(page)
        page.comes_to_show(errors=0)
        mainframe.write("FOO")
        page.comes_to_show(errors=1)
        lit, texts = drawn(browser, page)
        same("lit channels", lit, ["2!3"])
        told = {"state": "connected", "doing": AWAITS_TRIGGER, "count": "1", "errors": "1", "status": "4",
                "fault": "no", "taken": '-221,"Settings conflict"', "low": "1 V", "high": "", "first": "reading 1",
                "last": ""}
        same("texts", {name: texts.get(name) for name in told}, told)


def the_panel_outlives_a_lock(program):
    """It tells that another session holds the lock, and continues when that is free."""
    with Served(program) as served, served.join() as mainframe, page_of(served.port) as page:
        page.comes_to_show(state="connected", status=0)
        same("lock", mainframe.lock(0), 1)
        wait_until("a word of the lock", lambda: "holds the lock" in page.seen()["state"])
        mainframe.write("ROUT:CLOS (@1!5)")
        same("release", mainframe.release(), 1)
        page.comes_to_show(state="connected", closed=["1!5"], errors=0)


def the_panel_awaits_a_mainframe(program):
    """Without a mainframe, or when it has gone, the page says so."""
    with Served(program) as served, page_of(served.port) as page:
        page.comes_to_show(state="connected")
        served.process.kill()
        wait_until("a word of its end", lambda: page.seen()["state"].startswith("not connected"))


CHECKS = [the_page_is_served, the_panel_finds_the_cards, the_panel_shows_what_is, what_a_scan_waits_for_is_told,
          each_reading_has_its_channel, the_button_takes_the_errors, a_browser_draws_the_page,
          the_panel_outlives_a_lock, the_panel_awaits_a_mainframe]
