"""Tries the pages of operators/: each line that the agent can log stands on log.md with what one does; each figure, state and option that the
pages name is there; and what they say to type is typed, with what is installed, in the folder of the installed pages."""

import functools
import json
import os
import pathlib
import re
import shlex
import subprocess
import sys
from typing import Dict, Iterator, List, Tuple

import log_words
from sites import IN_FOLDERS, Open, Site, untimed
from trial import EXAMPLES, OPERATORS, PROGRAM, TOP, case, check, scratch, told
from numarun_host.commands import Verb
from numarun_host.ledger import Kind, State
from numarun_host.records import FIGURES

PREFIX = scratch("pages installed")
DOC = os.path.join(PREFIX, "share", "doc", "numarun")
PACKAGE = pathlib.Path(OPERATORS) / "numarun_host"
PAGES: Dict[str, str] = {path.name: path.read_text() for path in pathlib.Path(OPERATORS).glob("*.md")}
PROGRAMS = ("numarun-agent", "numarun-agent status", "numarun-agent add-service", "numarun-hook", "numarun-runc", "numarun-dry-run", "numarun-explain", "numarun-draw-plan", "numarun-describe host",
            "numarun-describe hwloc", "install.sh")
OF_OTHERS = {"--annotation", "--env", "--of", "--disallowed", "--now", "--sort", "--cpu-quota", "--name", "--root", "--runc-binary", "--cgroup-parent", "--cgroup-manager", "--memory",
             "--all", "--bundle", "--detach", "--exec-id", "--infra", "--network", "--no-pivot", "--pod", "--signal"}  # options of other programs
OF_THE_SYSTEM = {"No such file or directory", "No space left on device"}
OPTION = re.compile(r"(?<![\w-])--[a-z][a-z-]+")


def rows(page: str) -> List[List[str]]:
    """The cells of a page's tables."""
    lines = [line for line in PAGES[page].splitlines() if line.startswith("| ") and not line.startswith("|--")]
    return [[cell.strip() for cell in line.strip("|").split(" | ")] for line in lines]


def blocks(page: str, kind: str) -> Iterator[str]:
    for found, block in re.findall(r"^```(\w*)\n(.*?)^```", PAGES[page], re.M | re.S):
        if found == kind:
            yield block


@case
def says_each_line() -> None:
    """Each word with which a line of the log begins has a row, and that says what one does; each phrase stands there as it is said."""
    words, others = log_words.first_words(PACKAGE)
    verb = {other for other in others if other.startswith("f'{verb.value} ")}
    check("lines that are seen in the source or written down by hand", sorted(others - verb), sorted(log_words.BY_HAND))
    words |= {kind.word for kind in Kind} | {verb.value for verb in Verb} | {word for by_hand in log_words.BY_HAND.values() for word in by_hand}
    said = [row for row in rows("log.md") if row[0].startswith(("`", "any other `", "the same"))]
    there = {word.split()[0].rstrip(":") for row in said for word in re.findall(r"`([^`]+)`", row[0])}
    check("words that the log page lacks", sorted(words - there), [])
    check("rows that say nothing", [row for row in said if "numarun_" not in row[0] and ("" in row or len(row) < 2)], [])
    page = " ".join(PAGES["log.md"].split())
    check("phrases that it lacks", sorted(phrase for phrase in log_words.phrases(PACKAGE) if phrase not in page), [])


@case
def names_what_there_is() -> None:
    figures = set(re.findall(r"`numarun_(\w+)`", PAGES["log.md"]))
    check("the figures", figures, set(FIGURES))
    states = {word for row in rows("troubleshooting.md") for word in re.findall(r"`(\w+)`", row[0])}
    check("states that the table lacks", sorted(state.value for state in State if state.value not in states), [])
    helps = "\n".join(told(script, "--help")[1] for script in PROGRAMS)
    options = {option for page in PAGES.values() for option in OPTION.findall(page)}
    check("options that nobody takes", sorted(options - OF_OTHERS - set(OPTION.findall(helps))), [])
    check("of others that no page names", sorted(OF_OTHERS - options), [])
    for page in PAGES:
        check(f"{page} is named on the first page", page == "README.md" or f"]({page})" in PAGES["README.md"], True)
        for wish in set(re.findall(r"numarun\.(\w+)=", PAGES[page])):
            check(f"{page}: numarun.{wish}", f"numarun.{wish}=" in helps, True)


@case
def quotes_what_is_said() -> None:
    """What troubleshooting.md quotes of a line, between what stands there for something else, is said by a script."""
    said = log_words.all_texts(PACKAGE)
    quoted = [text for row in rows("troubleshooting.md") for text in re.findall(r"`([^`]+)`", " | ".join(row[:2]))]
    lines = [text for text in quoted if not re.match(r"(cat|ls|grep|ps|numarun-\S+) ", text)]
    pieces = [piece.strip(" :,()") for text in lines for piece in re.split(r"\.\.|\b[A-Z]+\b|\d+ s|: |refused E\d+", text)]
    lines = [piece for piece in pieces if len(piece.split()) > 2]
    check("lines that nobody says", sorted({line for line in lines if line not in said} - OF_THE_SYSTEM), [])
    check("lines that are quoted", len(lines) > 8, True)
    named = {refusal for page in PAGES.values() for refusal in re.findall(r"\b(E\d+) ([A-Z]\w+)", page)}
    known = set(re.findall(r"^\| (E\d+) \| (\w+) \|", open(os.path.join(TOP, "docs", "formats.md")).read(), re.M))
    check("refusals that there are not", (sorted(named - known), len(named) > 5), ([], True))


@functools.lru_cache(None)
def install() -> None:
    check("installed", told("install.sh", PREFIX, env={**os.environ, "PROGRAM": PROGRAM})[0], 0)


@case
def is_laid_out() -> None:
    """Installed pages lead to what is installed."""
    install()
    for name in PAGES:
        for link in re.findall(r"\]\(([^)#\s]+)[^)]*\)", PAGES[name]):
            check(f"{name}: {link}", os.path.exists(os.path.join(DOC, "operators", link)), True)


def typed(line: str, folder: str = DOC) -> Tuple[int, str]:
    """What is said to a line of a shell, where numarun is installed."""
    install()
    here = {"PATH": f"{PREFIX}/bin:{os.environ['PATH']}", "HOME": "/nowhere"}
    ran = subprocess.run(["bash", "-c", line], capture_output=True, cwd=folder, env=here, timeout=100)
    return ran.returncode, ran.stdout.decode() + ran.stderr.decode()


@case
def shows_what_is_said() -> None:
    """What is shown behind a command is what it says, but for the time."""
    stamp, count = r"\d{4}-\d\d-\d\dT[\d:.]+ ", 0
    for page in PAGES:
        for block in blocks(page, ""):
            if block.startswith("$ "):
                line, shown = block[2:].split("\n", 1)
                status, found = typed(line)
                check(f"{page}: {line}", (status, re.sub(stamp, "", found)), (0, re.sub(stamp, "", shown)))
                count += 1
    check("what is shown", count >= 6, True)


@case
def draws() -> None:
    lines = next(block for block in blocks("plans.md", "sh") if "draw-plan" in block).replace("/tmp/", f"{shlex.quote(scratch())}/").splitlines()
    found = [typed(line) for line in lines]
    check("the picture", ([status for status, _ in found], open(scratch("plan.svg")).read()),
          ([0, 0, 0], open(os.path.join(TOP, "docs", "two-socket.svg")).read()))
    check("and as text", "database" in found[2][1], True)


def two_sockets() -> Site:
    return Site(json.load(open(os.path.join(EXAMPLES, "machines", "two-socket.json"))))


@case
def ten_minutes() -> None:
    """The log and the table of the first page, by a container that comes behind the first plan."""
    site = two_sockets()
    site.online("0-31")
    site.come("other", 2)
    agent = Open(site, "--defaults")
    agent.until("done")
    site.go("other")
    agent.until("done")
    site.come("db", 4)
    log = "".join(f"{line}\n" for line in agent.until("done")).replace(site.at("g"), "/run/crun")
    table = told("numarun-agent", "status", "--agent", site.at("work/hooks"))[1]
    shown = [block for block in blocks("README.md", "") if not block.startswith("$ ")]
    check("the first page", [log, table], shown[:2])
    agent.end()
    first = next(block for block in blocks("README.md", "sh") if "--rounds" in block).strip()
    has = site.has("db")
    line = first.replace("/etc/numarun/machine.json", site.at("machine.json")).replace("--runtime all", f"--watch {site.at('g')}")
    found = typed(f"{line} --online {site.at('online')}")
    check("and what is seen first", (found[0], "".join(f"{line}\n" for line in untimed(found[1])).replace(site.at("g"), "/run/crun")), (0, shown[0]))
    check("which writes nothing", site.has("db"), has)


@case
def a_service() -> None:
    """What the page says to type makes a service one of the containers, by both of its ways, and the others of its slice are held on the
    pool."""
    site = two_sockets()
    site.online("0-31")
    for group in ("system.slice", "system.slice/mariadb.service", "system.slice/ssh.service"):
        site.make_group(None, group=group)
    short, block = (block for block in blocks("runtimes.md", "sh") if "mariadb" in block)
    folder = site.at("etc/services/mariadb")
    check("the short way", typed(f"{short.strip()} --services {site.at('etc/services')} --cgroup {site.at('root')}"),
          (0, f"{folder}: mariadb.service at /system.slice/mariadb.service\n"))
    by_hand = {name: json.load(open(os.path.join(folder, name))) for name in ("status", "config.json")}
    check("typed", typed(f"set -e\n{block}".replace("/etc/numarun", site.at("etc"))), (0, ""))
    check("the same by hand", {name: json.load(open(os.path.join(folder, name))) for name in by_hand}, by_hand)
    status, lines = site.run("--defaults", "--watch", site.at("etc/services"), "--rest", "system.slice")
    named = "hold mariadb 1-2,17-18"
    check("pinned", (status, named in lines, f"`{named}`" in PAGES["runtimes.md"]), (0, True, True))
    check("beside the others", (site.file("system.slice/mariadb.service"), site.file("system.slice/ssh.service")), ("1-2,17-18", "0,3-16,19-31"))


@case
def a_hook() -> None:
    block, daemon = blocks("runtimes.md", "json")
    check("the hook", json.loads(block)["hook"]["path"], "/usr/local/bin/numarun-hook")
    check("docker's runtime", json.loads(daemon)["runtimes"]["numarun"]["path"], "/usr/local/bin/numarun-runc")
    script = scratch("pool")
    with open(script, "w") as file:
        file.write(next(block for block in blocks("safety.md", "sh") if block.startswith("#!")))
    check("the pool's script", subprocess.run(["sh", "-n", script], capture_output=True).returncode, 0)
    mask = re.search(r"python3 -c '(.*?)' \"\$1\"", open(script).read(), re.S)
    ran = subprocess.run([sys.executable, "-c", mask[1] if mask else "", "0,3-5,32-33"], capture_output=True)
    check("its mask", ran.stdout.decode(), "00000003,00000039\n")


@case
def a_configuration() -> None:
    """The words of a file, as install.md has them, and the options of the unit."""
    site = Site()
    options = [line.partition("=")[2] for block in blocks("install.md", "") for line in block.splitlines() if line.startswith("OPTIONS=")]
    with open(site.at("words"), "w") as file:
        file.write("\n".join([site.at("machine.json"), *options]) + "  # as the page has it\n")
    status, out, _ = told("numarun-agent", "check-config", f"@{site.at('words')}", "--program", IN_FOLDERS)
    check("@FILE", (status, len(options), "are left to the pool" in out), (0, 1, True))
