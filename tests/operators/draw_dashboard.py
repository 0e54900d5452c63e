#!/usr/bin/env python3
"""Draws the dashboard of examples/ as a picture, by hand: `draw_dashboard.py OUT.svg [HOURS [SEED]]`. So many hours (six) of containers are played in
folders, as weeks.py does. The figures that the agent leaves are handed to Debian's Prometheus, which answers each panel's queries, and what it
answers is drawn where the panel stands. It is what Grafana would be told, and not how Grafana would draw it."""

from __future__ import annotations

import html
import json
import os
import random
import re
import socket
import subprocess
import sys
import tempfile
import time
import urllib.parse
import urllib.request
from typing import Any, Dict, List, Mapping, Sequence, Tuple

from trial import EXAMPLES, text_of, written
from weeks import HOUR, MEMORY, Play

BEGINS = 1_790_000_000  # when the hours begin, in seconds since 1970
MINUTE = 60.0
CELL = 60, 40           # of the dashboard's grid of 24 columns
COLOURS = ("#7eb26d", "#eab839", "#6ed0e0", "#ef843c")
Series = List[Tuple[str, List[Tuple[float, float]]]]  # by its legend the points of each line


def played(folder: str, hours: int, seed: int) -> Tuple[str, int]:
    """The figures of each minute in the words of OpenMetrics, and how many minutes there are."""
    play, samples, chance = Play(folder, seed), dict[str, List[str]](), random.Random(seed)
    kinds: Dict[str, str] = {}
    for minute in range(int(hours * HOUR / MINUTE)):
        for _ in range(chance.randrange(3 if minute % 60 < 45 else 9)):
            play.happen()
        play.now += MINUTE
        play.agent.turn()
        text = text_of(play.tree.at("figures"))
        kinds.update(re.findall(r"^# TYPE (\w+) (\w+)$", text, re.M))
        for name, value in re.findall(r"^(numarun_\w+) (\S+)$", text, re.M):
            at = BEGINS + int(play.now)
            samples.setdefault(name, []).append(f'{name}{{instance="host"}} {at - 2 if "timestamp" in name else value} {at}')
    play.end()
    families = [[f"# TYPE {name[:-6] if kinds[name] == 'counter' else name} {kinds[name]}", *lines] for name, lines in samples.items()]
    return "\n".join(line for family in families for line in family) + "\n# EOF\n", minute + 1


def free_port() -> int:
    with socket.socket() as door:
        door.bind(("127.0.0.1", 0))
        port: int = door.getsockname()[1]
        return port


def asked(port: int, query: str, minutes: int) -> List[Tuple[Mapping[str, str], List[Tuple[float, float]]]]:
    words = urllib.parse.urlencode({"query": query, "start": BEGINS + 60, "end": BEGINS + 60 * minutes, "step": "60"})
    with urllib.request.urlopen(f"http://127.0.0.1:{port}/api/v1/query_range?{words}") as answer:
        found = json.load(answer)["data"]["result"]
    return [(series["metric"], [(float(at), float(value)) for at, value in series["values"]]) for series in found]


def answers(folder: str, board: Mapping[str, Any], minutes: int) -> Dict[int, Series]:
    """What Prometheus answers to the queries of each panel."""
    port = free_port()
    server = subprocess.Popen(["prometheus", f"--storage.tsdb.path={folder}/data", f"--web.listen-address=127.0.0.1:{port}", f"--config.file={folder}/none.yml",
                               "--storage.tsdb.retention.time=100y", "--log.level=error"])
    try:
        for _ in range(600):
            time.sleep(0.1)
            with socket.socket() as door:
                if door.connect_ex(("127.0.0.1", port)) == 0:
                    break
        time.sleep(1)
        found: Dict[int, Series] = {}
        for panel in board["panels"]:
            for target in panel["targets"]:
                query = target["expr"].replace("$instance", ".*").replace("$__rate_interval", "5m")
                for labels, points in asked(port, query, minutes):
                    legend = target["legendFormat"].replace("{{instance}}", labels.get("instance", ""))
                    found.setdefault(panel["id"], []).append((legend, points))
        return found
    finally:
        server.terminate()
        server.wait()


def text(x: float, y: float, said: str, size: int = 12, fill: str = "#ccccdc") -> str:
    return f'<text x="{x:.1f}" y="{y:.1f}" font-size="{size}" fill="{fill}" font-family="sans-serif">{html.escape(said)}</text>'


def drawn(panel: Mapping[str, Any], lines: Series) -> List[str]:
    """A panel: the last value of a `stat`, in the colour of its threshold, and else a line for each query, with the least and the most of its axis."""
    place = panel["gridPos"]
    x, y, width, height = place["x"] * CELL[0] + 4, place["y"] * CELL[1] + 4, place["w"] * CELL[0] - 8, place["h"] * CELL[1] - 8
    parts = [f'<rect x="{x}" y="{y}" width="{width}" height="{height}" fill="#181b1f" stroke="#34373e"/>', text(x + 8, y + 18, panel["title"], 13)]
    if not lines:
        return [*parts, text(x + width / 2 - 30, y + height / 2, "No data")]
    if panel["type"] == "stat":
        value = lines[0][1][-1][1]
        steps = [step for step in panel["fieldConfig"]["defaults"]["thresholds"]["steps"] if step["value"] is None or value >= step["value"]]
        return [*parts, text(x + 8, y + height / 2 + 24, f"{value:g}", 44, {"green": "#73bf69", "red": "#f2495c"}[steps[-1]["color"]])]
    values = [value for _, points in lines for _, value in points]
    least, most = min(0.0, *values), max(1.0, *values)
    first, last = min(points[0][0] for _, points in lines), max(points[-1][0] for _, points in lines)
    for k, (legend, points) in enumerate(lines):
        way = " ".join(f"{x + 50 + (at - first) / max(last - first, 1) * (width - 60):.1f},{y + height - 40 - (value - least) / (most - least) * (height - 75):.1f}" for at, value in points)
        parts += [f'<polyline points="{way}" fill="none" stroke="{COLOURS[k]}" stroke-width="1.5"/>', text(x + 50 + 170 * k, y + height - 10, f"- {legend}", 12, COLOURS[k])]
    return [*parts, text(x + 8, y + 36, f"{most:g}", 11), text(x + 8, y + height - 38, f"{least:g}", 11)]


def main(words: Sequence[str]) -> int:
    out, hours, seed = words[0], int(words[1]) if len(words) > 1 else 6, int(words[2]) if len(words) > 2 else 1
    with open(os.path.join(EXAMPLES, "dashboards", "grafana.json"), encoding="utf-8") as file:
        board = json.load(file)
    with tempfile.TemporaryDirectory(prefix="dashboard-", dir=MEMORY if os.access(MEMORY, os.W_OK) else None) as folder:
        told, minutes = played(os.path.join(folder, "play"), hours, seed)
        written(f"{folder}/none.yml", "")
        subprocess.run(["promtool", "tsdb", "create-blocks-from", "openmetrics", written(f"{folder}/figures", told), f"{folder}/data"], check=True, stdout=subprocess.DEVNULL)
        found = answers(folder, board, minutes)
    height = max(panel["gridPos"]["y"] + panel["gridPos"]["h"] for panel in board["panels"]) * CELL[1]
    parts = [part for panel in board["panels"] for part in drawn(panel, found.get(panel["id"], []))]
    size = f'width="{24 * CELL[0]}" height="{height}"'
    written(out, "\n".join([f'<svg xmlns="http://www.w3.org/2000/svg" {size}>', f'<rect {size} fill="#111217"/>', *parts, "</svg>", ""]))
    return 0


if __name__ == "__main__":
    sys.exit(main(sys.argv[1:]))
