"""Tries the dashboard of examples/: its queries name figures that the agent leaves, each figure has a place on it, and, where Debian's promtool is,
they come to what the figures say, in Prometheus's own words. So are the alerts of the log's page."""

from __future__ import annotations

import json
import os
import re
import shutil
import subprocess
from typing import Dict, Iterator, List, Tuple

from sites import Site
from trial import EXAMPLES, OPERATORS, case, check, scratch, text_of, written
from numarun_host.records import FIGURES

LOG = os.path.join(OPERATORS, "log.md")
BOARD = json.load(open(os.path.join(EXAMPLES, "dashboards", "grafana.json")))
VARIABLES = {"$instance": ".*", "$__rate_interval": "5m"}
HOURS = 2
# What a query comes to behind two hours, of a figure that is 3 at first and grows by 6 a minute, where it is a counter.
SAMPLE, STEP = 3, 6


def queries() -> Iterator[Tuple[str, str]]:
    """Each panel's title with its queries, as Prometheus is asked them."""
    for panel in BOARD["panels"]:
        for target in panel["targets"]:
            query = target["expr"]
            for name, value in VARIABLES.items():
                query = query.replace(name, value)
            yield panel["title"], query


@case
def names_figures() -> None:
    named = [name for _, query in queries() for name in re.findall(r"\bnumarun_(\w+)", query)]
    check("figures that nobody leaves", sorted(set(named) - set(FIGURES)), [])
    check("figures that are shown nowhere", sorted(set(FIGURES) - set(named)), [])
    for _, query in queries():
        name = re.findall(r"\bnumarun_(\w+)", query)[0]
        check(f"{query}: a counter's growth, a gauge's value", bool(re.match(r"(rate|increase)\(", query)), FIGURES[name][0] == "counter")
    left = [variable for panel in BOARD["panels"] for target in panel["targets"] for variable in re.findall(r"\$\w+", target["expr"]) if variable not in VARIABLES]
    check("variables", (left, sorted(variable["name"] for variable in BOARD["templating"]["list"])), ([], ["instance", "source"]))


@case
def is_laid_out() -> None:
    """No two panels overlap, and each says what it shows."""
    taken: Dict[Tuple[int, int], str] = {}
    for panel in BOARD["panels"]:
        place = panel["gridPos"]
        cells = [(x, y) for x in range(place["x"], place["x"] + place["w"]) for y in range(place["y"], place["y"] + place["h"])]
        check(f"{panel['title']}: its place", (sorted({taken[cell] for cell in cells if cell in taken}), max(x for x, _ in cells) < 24), ([], True))
        taken.update((cell, panel["title"]) for cell in cells)
        check(f"{panel['title']}: what it shows", panel["description"].endswith("."), True)
    check("ids", len({panel["id"] for panel in BOARD["panels"]}), len(BOARD["panels"]))


def expected(query: str) -> float:
    """What the sample comes to, by hand: a gauge is 3, a counter grows by 6 a minute, and the last look was 3 seconds behind 1970."""
    if query.startswith("time()"):
        return HOURS * 3600 - SAMPLE
    if query.startswith("rate("):
        return STEP / 60
    return 60 * STEP if query.startswith("increase(") else SAMPLE


@case
def asks_prometheus() -> None:
    """The queries over the figures that an agent leaves, which Prometheus reads."""
    promtool = os.environ.get("PROMTOOL") or shutil.which("promtool")
    if not promtool:
        print("the dashboard: what Prometheus says is passed over, as there is none: promtool (Debian: prometheus)")
        return
    site = Site()
    site.come("a", 2)
    site.run("--textfile", site.at("numarun.prom"))
    text = open(site.at("numarun.prom")).read()
    ran = subprocess.run([promtool, "check", "metrics"], input=text, capture_output=True, text=True)
    check("the figures as Prometheus reads them", (ran.returncode, ran.stdout, ran.stderr), (0, "", ""))
    kinds = dict(re.findall(r"^# TYPE (\w+) (\w+)$", text, re.M))
    series = [{"series": f'{name}{{instance="host"}}', "values": f"{SAMPLE}+{STEP if kind == 'counter' else 0}x{60 * HOURS}"} for name, kind in kinds.items()]
    tests: List[Dict[str, object]] = []
    for _, query in queries():
        labels = re.sub(r"^.*?(numarun_\w+).*$", r'\1{instance="host"}', query) if re.match(r"numarun_", query) else '{instance="host"}'
        tests.append({"expr": query, "eval_time": f"{HOURS}h", "exp_samples": [{"labels": labels, "value": expected(query)}]})
    with open(site.at("tests.json"), "w") as file:  # what is JSON is YAML
        json.dump({"tests": [{"interval": "1m", "input_series": series, "promql_expr_test": tests}]}, file)
    ran = subprocess.run([promtool, "test", "rules", site.at("tests.json")], capture_output=True, text=True)
    check("what the queries come to", (ran.returncode, ran.stderr), (0, ""))
    check("how many", len(tests) >= 15, True)


def alerts() -> str:
    found = re.search(r"```yaml\n(.*?)```", text_of(LOG), re.S)
    return found[1] if found else ""


@case
def alerts_name_figures() -> None:
    rules = re.findall(r"- alert: (\w+)\n +expr: (.+)\n(?: +for: (\w+)\n)?", alerts())
    check("how they fire", [(name, pause) for name, _, pause in rules], [("NumarunDoesNotLook", ""), ("NumarunSqueezed", "5m"), ("NumarunUndone", "10m")])
    named = {figure for _, query, _ in rules for figure in re.findall(r"\bnumarun_(\w+)", query)}
    check("figures", (sorted(named - set(FIGURES)), {FIGURES[name][0] for name in named}), ([], {"gauge"}))


@case
def alerts_fire() -> None:
    """What Prometheus says of a machine on which nobody looks any more, one that is squeezed, one on which something is left undone, and one where
    all that is undone is that somebody waits."""
    promtool = os.environ.get("PROMTOOL") or shutil.which("promtool")
    if not promtool:
        print("the alerts: what Prometheus says is passed over, as there is no promtool (Debian: prometheus)")
        return
    rules = written(scratch("rules.yml"), alerts())
    values = {"look": (0, 0, 0, 0), "squeezed": (60, 2, 2, 0), "undone": (60, 0, 3, 1), "waits": (60, 0, 2, 2), "well": (60, 0, 0, 0)}
    figures = ("look_timestamp_seconds", "containers_squeezed", "undone", "containers_waiting")
    series = [{"series": f'numarun_{figure}{{instance="{host}"}}', "values": f"0+{value}x30" if figure == figures[0] else f"{value}x30"}
              for host, several in values.items() for figure, value in zip(figures, several)]
    fires: Dict[Tuple[str, int], List[str]] = {("NumarunDoesNotLook", 20): ["look"], ("NumarunSqueezed", 4): [], ("NumarunSqueezed", 6): ["squeezed"], ("NumarunUndone", 9): [],
                                               ("NumarunUndone", 11): ["squeezed", "undone"]}
    texts = {name: text for name, text in re.findall(r"- alert: (\w+)\n(?:.*\n)*?.*summary: \"(.*)\"", alerts())}
    tests = [{"eval_time": f"{minutes}m", "alertname": name, "exp_alerts": [{"exp_labels": {"instance": host}, "exp_annotations": {
        "summary": texts[name].replace("{{ $labels.instance }}", host)}} for host in hosts]} for (name, minutes), hosts in fires.items()]
    written(scratch("tests.json"), json.dumps({"rule_files": [rules], "tests": [{"interval": "1m", "input_series": series, "alert_rule_test": tests}]}))
    ran = subprocess.run([promtool, "test", "rules", scratch("tests.json")], capture_output=True, text=True)
    check("who fires", (ran.returncode, ran.stdout + ran.stderr if ran.returncode else ""), (0, ""))
