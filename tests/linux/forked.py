"""An agent, or a release, that is a fork of the part: it has the modules already, which an emulated machine takes seconds to read. The words and `main`
are the script's. The preload that kills behind a write is there from the beginning of the part, and counts where the environment names a group."""

import os
import sys

import tree
import watched
from numarun_host import agent, script


class Fork:
    """A process that is an agent with these words, with as much of subprocess.Popen as is asked of it."""

    def __init__(self, words, out, environment):
        self.returncode, self.pid = None, os.fork()
        if not self.pid:
            become(words, out, environment)

    def poll(self):
        return self.waited_for(os.WNOHANG)

    def wait(self):
        return self.waited_for(0)

    def waited_for(self, how):
        if self.returncode is None:
            pid, status = os.waitpid(self.pid, how)
            self.returncode = os.waitstatus_to_exitcode(status) if pid else None
        return self.returncode

    def send_signal(self, number):
        if self.poll() is None:
            os.kill(self.pid, number)


def become(words, out, environment):
    """Ends by `SystemExit`, as the script does."""
    for number, path, flags in ((0, os.devnull, os.O_RDONLY), (1, out, os.O_WRONLY | os.O_APPEND), (2, out, os.O_WRONLY | os.O_APPEND)):
        file = os.open(path, flags)
        os.dup2(file, number)
        os.close(file)
    os.environ.update(environment)
    sys.argv = words[len(watched.PYTHON):]
    script.run(agent.main)


def begin():
    """From now on each agent is a fork. The part begins anew with the preload, if it is not there yet."""
    if os.environ.get("LD_PRELOAD") != tree.STOP:
        os.execve(watched.PYTHON[0], [*watched.PYTHON, *sys.argv], {**os.environ, "LD_PRELOAD": tree.STOP})
    watched.start = Fork
