"""A map as one page, with a slider over time."""
import base64
import hashlib
from math import ceil

from .command import Refused
from .drawing import COLOURS, EPOCH, moment, shown_text
from .texts import json_text
from .times import UNIX

SINCE_1970 = EPOCH - UNIX

STYLE = """
body { margin: 1em auto; max-width: 900px; font-family: sans-serif; color: #333 }
svg { display: block; width: 100%; height: auto }
#controls { display: flex; gap: 0.8em; align-items: center; margin: 0.6em 0 }
#time { flex: 1 }
#clock { font-variant-numeric: tabular-nums; min-width: 12.5em }
#meetings button { font: inherit; border: 0; background: none; cursor: pointer; text-align: left }
#meetings button.now { color: #c8161d; font-weight: bold }
"""

SCRIPT = """
"use strict";
const data = JSON.parse(document.getElementById("data").textContent);
const byId = (id) => document.getElementById(id);
const slider = byId("time"), RED = "#c8161d";

function add(parent, kind, attributes, text) {
  const made = document.createElementNS("http://www.w3.org/2000/svg", kind);
  for (const name in attributes) made.setAttribute(name, attributes[name]);
  if (text !== undefined) made.textContent = text;
  return parent.appendChild(made);
}

// Where a piece is at a second: between the two reports beside it. Null outside of the piece.
function placeAt(piece, second) {
  if (second < piece[0][0] || second > piece[piece.length - 1][0]) return null;
  let low = 0, high = piece.length - 1;
  while (high - low > 1) {
    const middle = (low + high) >> 1;
    if (piece[middle][0] <= second) low = middle; else high = middle;
  }
  const [start, x, y] = piece[low], [end, nextX, nextY] = piece[high];
  const part = end > start ? (second - start) / (end - start) : 0;
  return [x + (nextX - x) * part, y + (nextY - y) * part];
}

const layer = byId("map").querySelector("svg").appendChild(
  document.createElementNS("http://www.w3.org/2000/svg", "g"));
const ships = data.tracks.map((track) => {
  const group = add(layer, "g", {"class": "ship"});
  const dot = add(group, "circle", {r: 6, stroke: "white", "stroke-width": 1.5});
  const name = add(group, "text", {x: 9, y: 4, stroke: "white", "stroke-width": 4,
    "paint-order": "stroke", "stroke-linejoin": "round", "font-weight": "bold"}, track.name);
  return {track, group, dot, name};
});
const buttons = data.meetings.map((meeting) => {
  const item = byId("meetings").appendChild(document.createElement("li"));
  const button = item.appendChild(document.createElement("button"));
  button.textContent = meeting.shown;
  button.onclick = () => go(meeting.spans[0][0]);
  return button;
});

// How far below its ship a name has room beside those that are shown.
function freeBelow(shown, x, y) {
  let below = 0;
  while (shown.some(([left, top]) => Math.abs(left - x) < 80 && Math.abs(top - y - below) < 14))
    below += 14;
  shown.push([x, y + below]);
  return below;
}

function show(second) {
  byId("clock").textContent = new Date((data.start + second) * 1000).toISOString()
    .replace("T", " ").slice(0, 19) + " UTC";
  const now = data.meetings.filter((it) =>
    it.spans.some(([first, last]) => first <= second && second <= last));
  buttons.forEach((it, number) => it.className = now.includes(data.meetings[number]) ? "now" : "");
  const shown = [];
  for (const {track, group, dot, name} of ships) {
    const places = track.pieces.map((it) => placeAt(it, second)).filter((it) => it);
    group.style.display = places.length ? "" : "none";
    if (!places.length) continue;
    const [x, y] = places[0];
    group.setAttribute("transform", `translate(${x.toFixed(1)} ${y.toFixed(1)})`);
    name.setAttribute("y", 4 + freeBelow(shown, x, y));
    const colour = now.some((it) => it.who.includes(track.name)) ? RED : track.colour;
    dot.setAttribute("fill", colour);
    name.setAttribute("fill", colour);
  }
}

// Shows an instant. The slider has whole seconds, and an encounter may begin between two.
function go(second) {
  slider.value = second;
  show(second);
}

// The instant of the address, such as #2026-05-05T09:22:08.
function fromAddress() {
  const asked = (Date.parse(location.hash.slice(1) + "Z") - data.start * 1000) / 1000;
  go(Number.isNaN(asked) ? 0 : Math.min(Math.max(asked, 0), data.length));
}

let running = null;
byId("play").onclick = () => {
  byId("play").textContent = running ? "Play" : "Stop";
  if (running) { clearInterval(running); running = null; return; }
  running = setInterval(() => {
    const next = Number(slider.value) + Math.ceil(data.length / 600);
    go(next > data.length ? 0 : next);
  }, 50);
};
slider.oninput = () => show(Number(slider.value));
window.onhashchange = fromAddress;
fromAddress();
"""


def pieces_on(drawing, shape, first):
    """The pieces of a moving point: seconds since the first, and where it is on the picture."""
    return [[[round(moment(second) - first, 3), *drawing.at((float(x), float(y)))]
             for (x, y), second in piece] for piece in shape.value.pieces]


def data_of(drawing):
    """What the page draws at an instant."""
    moving = [(number, it) for number, it in enumerate(drawing.shapes) if it.is_moving]
    tracks = [it for it in moving if not drawing.is_meeting(it[1])]
    meetings = [it for _, it in moving if drawing.is_meeting(it)]
    if not tracks:
        raise Refused("no moving point is in these answers: --html needs one")
    spans = [it.span() for _, it in moving]
    first, last = min(it[0] for it in spans) // 1, max(it[1] for it in spans)
    return {
        "start": first + SINCE_1970, "length": ceil(last - first),
        "tracks": [{"name": it.label(), "colour": COLOURS[number % len(COLOURS)],
                    "pieces": pieces_on(drawing, it, first)} for number, it in tracks],
        "meetings": [{"who": it.texts(), "shown": shown,
                      "spans": [[round(moment(end) - first, 3)
                                 for _, end in (piece[0], piece[-1])] for piece in it.value.pieces]}
                     for it, (_, shown) in zip(meetings, drawing.meetings)]}


def page(drawing, picture, title):
    """The page. It may load nothing, and runs no script but its own."""
    data = data_of(drawing)
    script_hash = base64.b64encode(hashlib.sha256(SCRIPT.encode()).digest()).decode()
    policy = f"default-src 'none'; style-src 'unsafe-inline'; script-src 'sha256-{script_hash}'"
    return f"""<!DOCTYPE html>
<html lang="en">
<head>
<meta charset="utf-8">
<meta http-equiv="Content-Security-Policy" content="{policy}">
<title>{shown_text(title) or "Map"}</title>
<style>{STYLE}</style>
</head>
<body>
<div id="controls">
<button id="play">Play</button>
<input id="time" type="range" min="0" max="{data["length"]}" step="1" value="0" aria-label="Time">
<output id="clock"></output>
</div>
<div id="map">
{picture}
</div>
<ol id="meetings"></ol>
<script type="application/json" id="data">{json_text(data)}</script>
<script>{SCRIPT}</script>
</body>
</html>"""
