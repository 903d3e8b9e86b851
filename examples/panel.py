#!/usr/bin/env python3
"""A page that shows the cage of `mainframe serve` while it works, by Python's standard library alone:

    examples/panel.py [--port P] [--host H] [--page Q]

Serves http://127.0.0.1:8480/, to this machine alone. It asks which cards there are, and shows slots and channels with
closed relays lit and groups coloured, cards that can't tell how their relays stand, what the scan waits for, the readings with their channels, the number of errors in the queue, and the status
byte, twice a second. The panel asks through a session of its own, by queries that change nothing, empty nothing and
queue no error. The page has one button, which takes the errors from the queue and shows their texts. While another
session holds the lock, the page says so and shows what was seen last.
"""
from __future__ import annotations

import argparse
import http.server
import json
import math
import re
import sys
import threading
import time
from collections.abc import Iterator
from typing import Any, NamedTuple

from swm import PORT, Session, SessionError

PAGE_PORT = 8480
SLOTS = range(1, 17)
PERIOD = 0.5  # seconds between two looks
PATIENCE = 1_000  # milliseconds that a look waits for an answer
MOST_PLOTTED = 1_000  # readings, the last ones
MOST_TAKEN = 32  # errors that are shown, the last ones
LOOK = (":ROUT:CLOS:STAT?;:STAT:OPER:COND?;:STAT:QUES:COND?;:SYST:ERR:COUN?;:TRAC:POIN:ACT?"
        ";:TRIG:SOUR?;:ARM:SOUR?;:ARM:LAY2:SOUR?;:ARM:LAY3:SOUR?")
PLAN = ":TRAC:POIN:ACT?;:ROUT:SCAN?;:TRIG:COUN?;:ARM:COUN?;:ARM:LAY2:COUN?;:ARM:LAY3:COUN?"
LAYERS = ["the TRIGger layer", "ARM layer 1", "ARM layer 2", "ARM layer 3"]
DOING = {0: "no scan runs, or one pauses", 2: "is settling", 16: "measures"}  # by OPERation's condition
WAITING = {32: LAYERS[:1], 64: LAYERS[1:]}
AWAITED = {"BUS": "a trigger (`*TRG`)", "EXT": "an external trigger", "HOLD": "its SIGNal", "TIM": "its timer"}


class Card(NamedTuple):
    """What is drawn of a slot."""
    slot: int
    kind: str
    groups: list[int]  # of each channel; a meter has none


def cards_in(session: Session) -> Iterator[Card]:
    """The cards of the cage."""
    kinds = session.query(";".join(f":SYST:CTYP? {slot}" for slot in SLOTS)).split(";")
    for slot, kind in zip(SLOTS, (fields.split(",")[1] for fields in kinds)):
        if kind.startswith("RELAY"):
            yield Card(slot, kind, [int(group) for group in session.query(f":SYST:CTYP:GRO? {slot}").split(",")])
        elif kind != "0":
            yield Card(slot, kind, [])


def doing(condition: int, sources: list[str]) -> str:
    """What the scan does, by OPERation's condition and the source of each layer."""
    of_layer = dict(zip(LAYERS, sources))
    waits = [f"{AWAITED[of_layer[layer]]} in {layer}" for layer in WAITING.get(condition, [])
             if of_layer[layer] in AWAITED]
    return f"waits for {', or '.join(waits)}" if waits else DOING.get(condition, DOING[0])


def channels_of(held: int, scan: str, count: int, *rounds: int) -> list[str]:
    """The positions of the last readings by a list: each of the rounds of ARM begins with the first one."""
    positions = scan.strip("(@)").split(",")
    if held > count * math.prod(rounds):
        return []
    return [positions[reading % count % len(positions)] for reading in range(max(held - MOST_PLOTTED, 0), held)]


class Readings(NamedTuple):
    """The last readings that were fetched, and where they stand among those that are held."""
    held: int = 0
    values: list[float] = []
    channels: list[str] = []  # of each value, by the list that was set then; none where that gives fewer readings


class Watch:
    """What was seen last of the instrument, and a session that looks again and again."""

    def __init__(self, port: int, host: str) -> None:
        self._address = (port, host)
        self._fetched = Readings()
        self._seen: dict[str, Any] = {"state": "not connected", "readings": [], "channels": [], "taken": []}
        self._lock = threading.Lock()
        self._takes_errors = threading.Event()

    def seen(self) -> dict[str, Any]:
        """What is shown now."""
        with self._lock:
            return dict(self._seen)

    def take_errors(self) -> None:
        """Lets the next look take the errors from the queue."""
        self._takes_errors.set()

    def run(self) -> None:
        """Looks for ever, by a new session where one ended."""
        while True:
            try:
                with Session(*self._address, timeout=PATIENCE) as session:
                    self._follow(session)
            except (SessionError, ValueError) as fault:
                self._tell(state=f"not connected: {fault}")
            time.sleep(PERIOD)

    def _follow(self, session: Session) -> None:
        cards: list[Card] = []
        while True:
            status = session.read_stb()
            try:
                if not cards:
                    cards = list(cards_in(session))
                    self._tell(cards=[card._asdict() for card in cards])
                self._look(session, status, [card.slot for card in cards if card.groups])
            except SessionError as fault:
                if "in time" not in fault.came:
                    raise
                self._tell(state="another session holds the lock, or a command takes long", status=status)
                session.clear()
            session.requests.clear()
            time.sleep(PERIOD)

    def _look(self, session: Session, status: int, slots: list[int]) -> None:
        if self._takes_errors.is_set():
            self._tell(taken=[*self.seen()["taken"], *session.errors()][-MOST_TAKEN:])
            self._takes_errors.clear()
        asked = LOOK + "".join(f";:SYST:CTYP:STAT? {slot}" for slot in slots)
        closed, operation, questionable, errors, held, *told = session.query(asked).split(";")
        sources, states = told[:len(LAYERS)], told[len(LAYERS):]
        if int(held) != self._fetched.held:
            self._fetched = self._fetch(session) if int(held) else Readings()
        self._tell(state="connected", closed=re.findall(r"\d+!\d+", closed), status=status & ~0x50, errors=int(errors),
                   unsure=[slot for slot, state in zip(slots, states) if state == "UNS"],
                   doing=doing(int(operation), sources), fault=bool(int(questionable) & 512), count=self._fetched.held,
                   readings=self._fetched.values, channels=self._fetched.channels)

    def _fetch(self, session: Session) -> Readings:
        """The readings that are held. `FETCh?` would queue an error where another session has just cleared them, so
        they are counted and fetched under the lock, which is held for this moment; where it isn't free, those before
        stay."""
        try:
            with session.lock_context(timeout=0):
                held, scan, *counts = session.query(PLAN).split(";")
                if held == "0":
                    return Readings()
                values = session.query_ascii_values(":FETC?")
        except SessionError as fault:
            if not fault.came.startswith("AsyncLockResponse"):
                raise
            return self._fetched
        return Readings(len(values), values[-MOST_PLOTTED:], channels_of(len(values), scan, *map(int, counts)))

    def _tell(self, **news: Any) -> None:
        with self._lock:
            self._seen.update(news)


PAGE = """<!DOCTYPE html>
<html lang="en"><meta charset="utf-8"><title>Mainframe</title>
<style>
body { font: 16px sans-serif; margin: 2em; background: #fafafa; color: #222 }
.slot { margin: .8em 0 } .slot b { display: inline-block; width: 9.5em }
.ch { display: inline-block; width: 2.1em; margin: 1px; padding: .2em 0; text-align: center; border-radius: 4px;
      border: 2px solid var(--group); background: #fff }
.closed { background: #d62; color: #fff; font-weight: bold }
.unsure .ch { opacity: .4 } .unsure b, #state.bad { color: #b00 } dl { display: grid; grid-template-columns: 12em auto } dd { margin: 0 }
ol { margin: 0; padding: 0; list-style: none }
#graph { display: grid; grid-template-columns: 9em 1fr; max-width: 60em; column-gap: .5em }
svg { width: 100%; height: 10em; background: #fff; border: 1px solid #ccc }
.axis { display: flex; justify-content: space-between } .axis.values { flex-direction: column; text-align: right }
table { margin-top: 1em } th, td { text-align: left; padding-right: 2em; font-weight: normal }
</style>
<h1>Mainframe</h1><p id="state" role="status"></p><div id="cage"></div>
<dl><dt>scan</dt><dd id="doing"></dd><dt>readings</dt><dd id="count"></dd>
<dt>status byte</dt><dd id="status"></dd><dt>a card failed</dt><dd id="fault"></dd>
<dt>errors in the queue</dt><dd><span id="errors"></span> <button id="take">take them, for all clients</button></dd>
<dt></dt><dd><ol id="taken"></ol></dd></dl>
<div id="graph"><div class="axis values"><span id="high"></span><span id="middle"></span><span id="low"></span></div>
<svg viewBox="0 0 1000 100" preserveAspectRatio="none"><path d="M0,1H1000M0,50H1000M0,99H1000" stroke="#ddd"
 vector-effect="non-scaling-stroke"/><polyline id="plot" fill="none" stroke="#06c" vector-effect="non-scaling-stroke"/>
</svg><div></div><div class="axis"><span id="first"></span><span id="last"></span></div></div>
<table><thead><tr><th>reading</th><th>channel, by the list set</th><th>V</th></tr></thead><tbody id="latest"></tbody>
</table>
<script>
const COLOURS = ["#bbb", "#06c", "#284", "#a3a", "#c60", "#088", "#852", "#555"];
const put = (id, text) => { document.getElementById(id).textContent = text; };
function draw(card) {
  const cells = card.groups.map((group, before) => {
    const cell = make("span", before + 1);
    cell.className = "ch"; cell.id = `${card.slot}!${before + 1}`; cell.title = group ? `group ${group}` : "no group";
    cell.style.setProperty("--group", COLOURS[group % COLOURS.length]);
    return cell;
  });
  const row = make("div", "", make("b", ""), ...cells);
  row.className = "slot"; row.dataset.slot = card.slot; row.dataset.kind = card.kind;
  return row;
}
let drawn = "";
function drawCage(cards, unsure) {
  if (JSON.stringify(cards) !== drawn) fill("cage", cards.map(draw));
  drawn = JSON.stringify(cards);
  for (const row of document.querySelectorAll(".slot")) {
    const isUnsure = unsure.includes(Number(row.dataset.slot));
    row.classList.toggle("unsure", isUnsure);
    row.firstChild.textContent = `${row.dataset.slot}: ${row.dataset.kind}` + (isUnsure ? ", unsure" : "");
  }
}
const fill = (id, items) => document.getElementById(id).replaceChildren(...items);
function make(kind, text, ...inside) {
  const made = document.createElement(kind);
  made.textContent = text;
  made.append(...inside);
  return made;
}
const isOver = v => Math.abs(v) > 9e37, volts = v => `${Number(v.toPrecision(12))} V`;
function plot(readings, before) {
  const shown = readings.filter(v => !isOver(v)), low = Math.min(...shown), high = Math.max(...shown);
  const x = i => i / Math.max(readings.length - 1, 1) * 1000, y = v => 99 - (v - low) / (high - low || 1) * 98;
  const points = readings.map((v, i) => isOver(v) ? "" : `${x(i)},${y(v)}`).join(" ");
  document.getElementById("plot").setAttribute("points", points);
  put("low", shown.length ? volts(low) : "");
  put("middle", high > low ? volts((low + high) / 2) : "");
  put("high", high > low ? volts(high) : "");
  put("first", readings.length ? `reading ${before + 1}` : "");
  put("last", readings.length > 1 ? `reading ${before + readings.length}` : "");
}
function list(readings, channels, before) {
  const latest = [...readings.keys()].slice(-20).reverse();
  fill("latest", latest.map(i => make("tr", "", ...[before + i + 1, channels[i] ?? "", readings[i]]
    .map(text => make("td", text)))));
}
function show(seen) {
  const state = document.getElementById("state");
  state.className = seen.state === "connected" ? "" : "bad";
  put("state", seen.state);
  drawCage(seen.cards || [], seen.unsure || []);
  const closed = new Set(seen.closed || []);
  for (const cell of document.querySelectorAll(".ch")) cell.classList.toggle("closed", closed.has(cell.id));
  for (const id of ["doing", "count", "errors", "status"]) put(id, seen[id] ?? "");
  put("fault", seen.fault ? "yes: every relay is open" : "no");
  fill("taken", seen.taken.map(error => make("li", error)));
  const before = (seen.count ?? 0) - seen.readings.length;
  plot(seen.readings, before);
  list(seen.readings, seen.channels, before);
}
document.getElementById("take").onclick = () => fetch("errors", {method: "POST", headers: {"X-Panel": "take"}});
async function look() {
  try { show(await (await fetch("state")).json()); }
  catch (fault) { put("state", `the panel does not answer: ${fault}`); }
  setTimeout(look, 500);
}
look();
</script></html>
"""


class Handler(http.server.BaseHTTPRequestHandler):
    """Answers GET of the page and of what was seen last, and the page's POST, and nothing else."""
    server: Panel

    def do_GET(self) -> None:
        if self.path == "/":
            self._answer("text/html; charset=utf-8", PAGE)
        elif self.path == "/state":
            self._answer("application/json", json.dumps(self.server.watch.seen()))
        else:
            self.send_error(404)

    def do_POST(self) -> None:
        """The button. A page of another site can't send its header here."""
        if self.path == "/errors" and self.headers.get("X-Panel") == "take":
            self.server.watch.take_errors()
            self._answer("text/plain", "")
        else:
            self.send_error(404)

    def _answer(self, kind: str, text: str) -> None:
        body = text.encode()
        self.send_response(200)
        for name, value in [("Content-Type", kind), ("Content-Length", str(len(body))), ("Cache-Control", "no-store")]:
            self.send_header(name, value)
        self.end_headers()
        self.wfile.write(body)

    def log_message(self, *_: Any) -> None:
        """Nothing is said of each look."""


class Panel(http.server.ThreadingHTTPServer):
    """The page, on loopback alone."""
    daemon_threads = True

    def __init__(self, page_port: int, watch: Watch) -> None:
        super().__init__(("127.0.0.1", page_port), Handler)
        self.watch = watch


def main() -> int:
    options = argparse.ArgumentParser(description="Shows the cage of `mainframe serve` on a page of this machine.")
    options.add_argument("--port", type=int, default=PORT, help="of the mainframe")
    options.add_argument("--host", default="127.0.0.1", help="of the mainframe")
    options.add_argument("--page", type=int, default=PAGE_PORT, help="the port of the page")
    words = options.parse_args()
    watch = Watch(words.port, words.host)
    with Panel(words.page, watch) as panel:
        threading.Thread(target=watch.run, daemon=True).start()
        print(f"panel: http://127.0.0.1:{panel.server_port}/", flush=True)
        try:
            panel.serve_forever()
        except KeyboardInterrupt:
            return 0


if __name__ == "__main__":
    sys.exit(main())
