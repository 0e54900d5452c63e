"""Compares the man page with the help that the program prints: its words are the help's. Those of the scripts name the options that there are, and
all of them, but for the agent's, which names those that one sets most. mandoc looks at them, where it is."""

from __future__ import annotations

import os
import re
import shutil
import subprocess

from trial import OPERATORS, PROGRAM, TOP, case, check
from trial import told as said
from numarun_host.agent import parser_of_words

PAGE = os.path.join(TOP, "docs", "numarun.1")
PAGES = [os.path.join(OPERATORS, name) for name in sorted(os.listdir(OPERATORS)) if name.endswith((".1", ".8"))]
HELPS = {"numarun-describe": ("numarun-describe host", "numarun-describe hwloc")}  # those that are asked for each of their subcommands


def helped(*words: str) -> str:
    return subprocess.run([PROGRAM, *words], capture_output=True, check=True).stdout.decode()


def plain(text: str) -> str:
    """The words of the page without its macros and marks, one blank between."""
    lines = []
    for line in text.splitlines():
        line = re.sub(r"^\.(Sq -) ,$", "- ,", line)
        lines.append(re.sub(r"^\.(?:Ql|Cm|Ar|Op|It|Pa|Fl|Nd|Nm|Sq|Sh|Ss)\b ?", "", line))
    return squeezed(" ".join(lines))


def squeezed(text: str) -> str:
    return " ".join(re.sub(r"[`\\.,;]", " ", text).split())


@case
def of_the_program() -> None:
    page = plain(open(PAGE).read())
    told = helped("--help")
    abouts = re.findall(r"^ +(?:check|list|slit|run|solve) +(.+)$", told, re.M)
    check("the commands of the help", len(abouts), 5)
    abouts.append(told.splitlines()[0])
    for about in abouts:
        check(f"the page has {about!r}", squeezed(about) in page, True)
    for command in ("check", "list", "slit", "run", "solve"):
        text = helped("help", command)
        usage = re.search(r"numarun (.+)", text)
        check(f"the page has the words of {command}", set(re.findall(r"[A-Za-z]+", usage[1] if usage else "none")) <= set(re.findall(r"[A-Za-z]+", page)), True)
        example = re.search(r"^Example: (.+?)(?: prints.*)?$", text, re.M)
        check(f"the page has an example of {command}", example and example[1].split(" <")[0] in open(PAGE).read(), True)
    for command in re.findall(r"^\| `([a-z]+)[^|]*\| (?:to|for|whether|that) ", open(os.path.join(TOP, "docs", "formats.md")).read(), re.M):
        check(f"the page has the line {command}", f".It Cm {command}" in open(PAGE).read(), True)


@case
def of_the_scripts() -> None:
    for path in PAGES:
        name = os.path.basename(path)[:-2]
        helps = "\n".join(said(script, "--help")[1] for script in HELPS.get(name, (name,)))
        options = re.findall(r"Fl (-[a-z-]+)", "\n".join(line for line in open(path) if line.startswith(".It Fl")))
        check(f"options of {name}", [option for option in options if not re.search(rf"-{option}[\s=]", helps)], [])
        check("and there are some", len(options) > 0, True)
        told_all = set(re.findall(r"^  (--[a-z-]+)", helps, re.M)) - {"--help"}
        check(f"options that {name} lacks", sorted(told_all - {f"-{option}" for option in options}) if name != "numarun-agent" else [], [])


@case
def of_the_agent() -> None:
    """Its help has its options in groups, what a container can say of itself, and each default."""
    text = " ".join(said("numarun-agent", "--help")[1].split())
    for words in ("what it works with:", "containers:", "the rest of the machine:", "what it leaves to read:", *(f"NUMARUN_{word}" for word in ("PIN", "LEAST", "STAY", "NEAR"))):
        check(f"the help has {words!r}", words in text, True)
    told = [action for action in parser_of_words()._actions if action.default and action.default != "==SUPPRESS=="]
    lacking = [action.dest for action in told if f"({action.default})" not in " ".join(((action.help or "") % vars(action)).split())]
    check("defaults that are not said", (lacking, len(told) > 5), (["program"], True))


@case
def by_mandoc() -> None:
    if shutil.which("mandoc"):
        found = subprocess.run(["mandoc", "-T", "lint", PAGE], capture_output=True)
        check("mandoc -T lint", (found.returncode, found.stdout.decode()), (0, ""))
        found = subprocess.run(["mandoc", "-T", "lint", "-W", "warning", *PAGES], capture_output=True)
        check("mandoc -T lint of the others", (found.returncode, found.stdout.decode()), (0, ""))
    else:
        print("numarun.1: passed over, as there is no mandoc: mandoc -T lint")
