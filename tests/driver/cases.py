"""Tries tests/run over made tests in a folder of their own: what is run, in which order and with what, what is told at the end, and
the status. Last, that the table of tests/run has the tests of this folder, each with what its script builds where it is not told."""

from __future__ import annotations

import contextlib
import importlib.machinery
import importlib.util
import io
import os
import pathlib
import re
import select
import signal
import subprocess
import sys
import tempfile
import textwrap
import typing
import unittest

HERE = pathlib.Path(__file__).resolve().parent
TESTS = HERE.parent


def loaded(path: pathlib.Path) -> typing.Any:
    """The module that a file without a suffix is."""
    loader = importlib.machinery.SourceFileLoader("driver", str(path))
    spec = importlib.util.spec_from_loader("driver", loader)
    assert spec
    module = importlib.util.module_from_spec(spec)
    sys.modules["driver"] = module
    loader.exec_module(module)
    return module


def heeds_interrupts() -> None:
    """What is begun in the background by a shell without job control ignores interrupts, and so would all that it begins."""
    signal.signal(signal.SIGINT, signal.SIG_DFL)


driver = loaded(TESTS / "run")
Test = driver.Test
# A test that makes two programs, those that need one or both, and some that need none.
MADE = (
    Test("first"),
    Test("maker", makes=(("PROGRAM", "out/program"), ("TOOLS", "out/tools")), words=("sh", "maker")),
    Test("one", needs=("PROGRAM",)),
    Test("both", needs=("PROGRAM", "TOOLS"), cases="PARTS"),
    Test("last"),
)
SAYS = 'echo "$0 PROGRAM=${PROGRAM:-} TOOLS=${TOOLS:-} PARTS=${PARTS:-}${BUILD:+ BUILD=$BUILD}"; pwd'


class Driver(unittest.TestCase):
    def setUp(self) -> None:
        folder = tempfile.TemporaryDirectory()
        self.addCleanup(folder.cleanup)
        self.top = pathlib.Path(folder.name).resolve()
        (self.top / "tests").mkdir()
        for name in ("first", "one", "both", "last"):
            self.script(name, SAYS)
        self.script("maker", SAYS)

    def script(self, name: str, text: str) -> None:
        path = self.top / "maker" if name == "maker" else self.top / "tests" / f"{name}.sh"
        path.write_text(text + "\n", encoding="utf-8")

    def started(self, *words: str, tests: str = "cases.MADE", **named: str) -> "subprocess.Popen[str]":
        """The driver over the made tests, in a process of its own, which leads its group as in a terminal."""
        call = f"import pathlib, sys; sys.path[:0] = [{str(HERE)!r}]; import cases\n" \
               f"sys.exit(cases.driver.main({list(words)!r}, {tests}, pathlib.Path({str(self.top)!r})))"
        clear = {name: text for name, text in os.environ.items() if name not in ("PROGRAM", "TOOLS", "PARTS", "BUILD")}
        return subprocess.Popen([sys.executable, "-B", "-u", "-c", call], stdout=subprocess.PIPE, stderr=subprocess.STDOUT, text=True,
                                env={**clear, **named}, start_new_session=True, preexec_fn=heeds_interrupts)

    def run_of(self, *words: str, tests: str = "cases.MADE", **named: str) -> tuple[int, list[str]]:
        """Its status, and what it and the tests print, without the times."""
        process = self.started(*words, tests=tests, **named)
        out, _ = process.communicate(timeout=60)
        return process.returncode, [self.without_times(line) for line in out.splitlines()]

    def without_times(self, line: str) -> str:
        line = re.sub(r"^== \d\d:\d\d:\d\d ", "== ", line)
        line = re.sub(r"^all  +\d+\.\d  +\d+\.\d$", "all T", line)
        return re.sub(r"  +\d+\.\d  +\d+\.\d  (passed|failed)", r" T \1", line).replace(str(self.top), "TOP")

    def test_all_pass(self) -> None:
        status, lines = self.run_of()
        self.assertEqual(lines, textwrap.dedent("""\
            == first (1 of 5)
            tests/first.sh PROGRAM= TOOLS= PARTS=
            TOP
            == maker (2 of 5)
            maker PROGRAM= TOOLS= PARTS=
            TOP
            == one (3 of 5)
            tests/one.sh PROGRAM=TOP/out/program TOOLS= PARTS=
            TOP
            == both (4 of 5)
            tests/both.sh PROGRAM=TOP/out/program TOOLS=TOP/out/tools PARTS=
            TOP
            == last (5 of 5)
            tests/last.sh PROGRAM= TOOLS= PARTS=
            TOP
            test   seconds  of processors  result
            first T passed
            maker T passed
            one T passed
            both T passed
            last T passed
            all T
            5 passed, 0 failed""").splitlines())
        self.assertEqual(status, 0)

    def test_goes_on_behind_a_failure(self) -> None:
        self.script("first", "exit 3")
        self.script("both", "kill -9 $$")
        status, lines = self.run_of()
        self.assertEqual(lines[-7:], ["first T failed: status 3", "maker T passed", "one T passed", "both T failed: ended by signal 9",
                                      "last T passed", "all T", "3 passed, 2 failed"])
        self.assertEqual(status, 1)

    def test_what_is_not_made_is_not_used(self) -> None:
        self.script("maker", "exit 1")
        status, lines = self.run_of()
        self.assertEqual(lines[-7:], ["first T passed", "maker T failed: status 1", "one          -              -  not run: maker failed",
                                      "both         -              -  not run: maker failed", "last T passed", "all T",
                                      "2 passed, 3 failed"])
        self.assertFalse([line for line in lines if line.startswith(("tests/one.sh", "tests/both.sh", "== one", "== both"))])
        self.assertEqual(status, 1)

    def test_a_command_that_is_not_there(self) -> None:
        status, lines = self.run_of(tests="(cases.Test('gone', words=('no-such-command',)),)")
        self.assertEqual(lines[-3:], ["gone T failed: no-such-command: No such file or directory", "all T", "0 passed, 1 failed"])
        self.assertEqual(status, 1)

    def test_names(self) -> None:
        for words, run in (
            (("last", "first"), ["first PROGRAM= TOOLS= PARTS=", "last PROGRAM= TOOLS= PARTS="]),
            (("--build", "one"), ["one PROGRAM= TOOLS= PARTS= BUILD=1"]),
            (("--build", "--from", "both"), ["both PROGRAM= TOOLS= PARTS= BUILD=1", "last PROGRAM= TOOLS= PARTS= BUILD=1"]),
            (("--build", "both/gone", "both/killed/4"), ["both PROGRAM= TOOLS= PARTS=gone killed/4 BUILD=1"]),
            (("--build", "both/gone", "both"), ["both PROGRAM= TOOLS= PARTS= BUILD=1"]),
        ):
            with self.subTest(words=words):
                status, lines = self.run_of(*words)
                self.assertEqual([line[6:].replace(".sh", "") for line in lines if line.startswith("tests/")], run)
                self.assertEqual((status, lines[-1]), (0, f"{len(run)} passed, 0 failed"))

    def test_no_program(self) -> None:
        """Nothing is built, or run, unasked."""
        why = "no program: {} in the environment name{} what it needs; --build proves and builds that first, which takes up to an hour"
        one, both = f"tests/run: one: {why.format('PROGRAM', 's')}", f"tests/run: both: {why.format('PROGRAM and TOOLS', '')}"
        for words, says in ((("one",), [one]), (("first", "one", "both"), [one, both]), (("--from", "one"), [one, both])):
            with self.subTest(words=words):
                self.assertEqual(self.run_of(*words), (2, says))
        self.assertEqual(self.run_of("both", PROGRAM="/p"), (2, [f"tests/run: both: {why.format('TOOLS', 's')}"]))
        status, lines = self.run_of("both", PROGRAM="/p", TOOLS="/t")
        self.assertEqual((status, lines[1]), (0, "tests/both.sh PROGRAM=/p TOOLS=/t PARTS="))
        status, lines = self.run_of("both", "maker")
        self.assertEqual((status, lines[4]), (0, "tests/both.sh PROGRAM=TOP/out/program TOOLS=TOP/out/tools PARTS="))

    def test_words_that_name_none(self) -> None:
        for words, says in (
            (("no-such",), "tests/run: no-such: no such test; --list names them"),
            (("no-such/case",), "tests/run: no-such: no such test; --list names them"),
            (("one/case",), "tests/run: one/case: one knows no cases"),
            (("--from", "no-such"), "tests/run: no-such: no such test; --list names them"),
            (("--from", "one", "last"), "tests/run: --from names one test, and those behind it are run: no others can be named"),
        ):
            with self.subTest(words=words):
                self.assertEqual(self.run_of(*words), (2, [says]))

    def test_list(self) -> None:
        self.assertEqual(self.run_of("--list"), (0, ["first", "maker", "one: needs PROGRAM of maker",
                                                     "both[/CASE]: needs PROGRAM of maker, TOOLS of maker", "last"]))

    def waiting(self) -> tuple["subprocess.Popen[str]", pathlib.Path]:
        """The driver while its first test waits for what is written into a pipe, once it has shown what that test said."""
        pipe = self.top / "pipe"
        os.mkfifo(pipe)
        self.script("first", f'echo begun; read -r line < "{pipe}"; echo "$line"')
        process = self.started()
        assert process.stdout
        shown = ""
        while "begun\n" not in shown:
            self.assertTrue(select.select([process.stdout], [], [], 60)[0], "what a test says is not shown as it comes")
            shown += os.read(process.stdout.fileno(), 1000).decode()
        return process, pipe

    def test_shows_what_comes(self) -> None:
        process, pipe = self.waiting()
        pipe.write_text("and ended\n", encoding="utf-8")
        out, _ = process.communicate(timeout=60)
        self.assertIn("and ended\n", out)
        self.assertEqual((process.returncode, out.splitlines()[-1]), (0, "5 passed, 0 failed"))

    def test_interrupted(self) -> None:
        process, _ = self.waiting()
        os.killpg(process.pid, signal.SIGINT)
        out, _ = process.communicate(timeout=60)
        self.assertIn("failed: interrupted", out)
        self.assertEqual(out.count("not run: interrupted"), 4)
        self.assertEqual((process.returncode, out.splitlines()[-1]), (1, "0 passed, 5 failed"))


class Table(unittest.TestCase):
    """The table of tests/run, beside the scripts."""

    def test_has_each_script(self) -> None:
        scripts = {path.stem for path in TESTS.glob("*.sh") if path.name != "all.sh" and not path.name.startswith("build-")}
        self.assertEqual({test.name for test in driver.TESTS}, scripts | {"rt-ci"})
        self.assertEqual(len(driver.TESTS), len({test.name for test in driver.TESTS}))

    def test_needs_what_scripts_build(self) -> None:
        for test in driver.TESTS:
            with self.subTest(test=test.name):
                script = TESTS / f"{test.name}.sh"
                text = script.read_text(encoding="utf-8") if script.is_file() else ""
                builds = [name for name, file in (("PROGRAM", "tests/build-program.sh"), ("TOOLS", "build-tools.sh")) if file in text]
                self.assertEqual(list(test.needs), builds)
                self.assertTrue(not test.cases or f"${{{test.cases}:-" in text, "its cases are told by a variable that it does not read")

    def test_makes_what_is_needed_before_it_is(self) -> None:
        made: set[str] = set()
        for test in driver.TESTS:
            self.assertLessEqual(set(test.needs), made, test.name)
            made |= {name for name, _ in test.makes}

    def test_lists_itself(self) -> None:
        out = io.StringIO()
        with contextlib.redirect_stdout(out):
            status = driver.main(["--list"])
        self.assertEqual((status, len(out.getvalue().splitlines())), (0, len(driver.TESTS)))


if __name__ == "__main__":
    unittest.main()
