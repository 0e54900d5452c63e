"""Runs of `tools run`: a script over a kernel of which one write fails, and over streams that fail, and what the kernel has then."""

import json
import os
import sys

HERE = os.path.dirname(os.path.abspath(__file__))
sys.path[:0] = [os.path.join(HERE, ".."), os.path.join(HERE, "..", "scripts")]
import program
from transcripts import config, place

MACHINE = json.dumps({"nodes": ["0-3", "4-7"], "distances": [[10, 21], [21, 10]], "reserved": "0"}).encode()
STREAMS = {"most": 8192, "read": "end", "width": 8192, "writes": 100_000, "write": "BrokenPipe"}


class Run:
    """Lines of a script with their answers, or a script and all its answers; how it ends; and calls of the kernel with theirs."""

    def __init__(self, fail, lines, calls=(), ended="Ok(())", script=None, answers=None, **streams):
        self.fail, self.calls, self.ended, self.streams = fail, list(calls), ended, dict(STREAMS, **streams)
        self.script = "".join(line + "\n" for line, _ in lines) if script is None else script
        self.answers = "".join(answer + "\n" for _, answer in lines) if answers is None else answers

    def wrong(self, tools, bundles, **more):
        """What is wrong with what is printed, if anything is."""
        words = [tools, "run", str(self.fail)] + [str(word) for word in self.streams.values()] + ["machine.json"] + list(bundles)
        text = self.script + "kernel\n" + "".join(call + "\n" for call, _ in self.calls)
        done = program.run(words, text.encode(), **more)
        expected = f"{self.ended}\n{self.answers}" + "".join(answer + "\n" for _, answer in self.calls)
        if (done.returncode, done.stderr, done.stdout.decode()) == (0, b"", expected):
            return None
        return f"{words[1:]}: {text[:2000]!r}: expected {expected[:2000]!r}, found {str(done)[-2000:]}"
