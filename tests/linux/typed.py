"""What operators/runtimes.md has for a runtime: the words that tell the agent of its folders, the lines that its part types, and the hook and
docker's runtime in JSON."""

import json
import os
import re
import shlex

import tree

PAGE = tree.read(f"{tree.REPOSITORY}/operators/runtimes.md")
HOOK, WRAPPER = "/usr/local/bin/numarun-hook", "/usr/local/bin/numarun-runc"


def option_of(runtime):
    """By which the agent watches the folders of a runtime's."""
    return shlex.split(re.search(rf"^\| {runtime} \| `(.*?)`", PAGE, re.M)[1])


def objects():
    """The hook of podman's and CRI-O's, and docker's daemon.json."""
    return [json.loads(block) for block in re.findall(r"^```json\n(.*?)^```", PAGE, re.M | re.S)]


def sections():
    """What a config says in linux.resources.cpu for two CPUs, and for a list."""
    return [json.loads(text) for text in re.findall(r'`(\{"(?:quota|cpus)":.*?\})`', PAGE)]


def install(path):
    """Puts a program of operators/ where the page has it."""
    os.makedirs(os.path.dirname(path), exist_ok=True)
    if not os.path.lexists(path):
        os.symlink(f"{tree.REPOSITORY}/operators/{os.path.basename(path)}", path)


class Lines:
    """The lines of the page that begin with this program, each of which its part types. `instead` has words in place of those that name what this
    machine has not, as an image."""

    def __init__(self, program, **instead):
        lines = [line for block in re.findall(r"^```sh\n(.*?)^```", PAGE, re.M | re.S) for line in block.splitlines()]
        self.there = {re.sub(r"\s+#.*", "", line) for line in lines if line.startswith(f"{program} ")}
        self.instead, self.typed = instead, set()

    def words(self, line, **instead):
        """What follows the program in a line, which stands there."""
        assert line in self.there, (line, sorted(self.there))
        self.typed.add(line)
        places = {**self.instead, **instead}
        return [word for there in shlex.split(line)[1:] for word in places.get(there, [there])]

    def are_all_typed(self):
        assert self.typed == self.there, sorted(self.there - self.typed)
