"""Scripts by streams that come in pieces and fail: lines at the limit, a reader that fails in mid-line, one byte a read; a writer that
fails, takes no byte, or one byte a write, and a flush that fails. What was carried out is read from the kernel."""

from run import Run, config

BUNDLES = {"ba": config({"quota": 100000})}
SCRIPT = "start a\n\n fork 2 \nfoo\nlist\r\nphase"
ANSWERS = ["refused E94 NoContainer", "refused E46 NoProcess", "refused E110 BadLine", "end", "settled"]
# How many answers there are once so many bytes were read.
ANSWERED = [(8, 0), (18, 1), (22, 2), (28, 3), (34, 4)]

COMMANDS = [("create a ba", "pid 2"), ("fork 2", "pid 3"), ("offline 3", "ok"), ("list", "a created\nend"), ("offline 4", "ok")]
# What the kernel has, by how many of these commands were carried out.
KERNEL = [("false", "false", "0-7"), ("true", "false", "0-7"), ("true", "true", "0-7"), ("true", "true", "0-2,4-7"),
          ("true", "true", "0-2,4-7"), ("true", "true", "0-2,5-7")]


def told(count):
    one, two, online = KERNEL[count]
    return [("alive 2", one), ("alive 3", two), ("online", f"ids {online}")]


def script(text, answers, ended="Ok(())", **streams):
    return Run(0, [], [], ended, script=text, answers="".join(line + "\n" for line in answers), **streams)


def pieces():
    for most in (1, 2, 3, 100):
        for width in (1, 3, 8192):
            yield script(SCRIPT, ANSWERS, most=most, width=width)


def failing_reads():
    for end in range(len(SCRIPT) + 1):
        count = next((count for limit, count in ANSWERED if end < limit), 4)
        for kind in ("BrokenPipe", "PermissionDenied", "Interrupted", "OutOfMemory"):
            for most in (1, 5):
                yield script(SCRIPT[:end], ANSWERS[:count], f"Err(Read({kind}))", most=most, read=kind)


def faulty_writes():
    """After so many writes of one byte each there is a fault; what is begun to be answered was carried out."""
    whole = "".join(answer + "\n" for _, answer in COMMANDS)
    begins = [len("".join(answer + "\n" for _, answer in COMMANDS[:k])) for k in range(len(COMMANDS))]
    text = "".join(line + "\n" for line, _ in COMMANDS)
    for taken in range(len(whole) + 1):
        for kind in ("BrokenPipe", "StorageFull", "WriteZero", "Interrupted", "OutOfMemory"):
            ended, count = ("Ok(())", 5) if taken == len(whole) else ("Err(Write)", sum(begin <= taken for begin in begins))
            yield Run(0, [], told(count), ended, script=text, answers=whole[:taken], most=100, width=1, writes=taken, write=kind)
    yield Run(0, [], told(1), "Err(Write)", script=text, answers="pid 2\n", writes="stuck")


def long_lines():
    for most in (1, 1000, 8191, 8192):
        yield script("list" + " " * 8188 + "\nlist\n", ["end", "end"], most=most)
        yield script("list" + " " * 8189 + "\nlist\n", ["refused E112 LineTooLong", "end"], most=most)
        yield script(" " * 8188 + "list", ["end"], most=most)
        yield script(" " * 8189 + "list", ["refused E112 LineTooLong"], most=most)
        yield script("x" * 8192 + "\n" + "y" * 20_000 + "\nlist", ["refused E110 BadLine", "refused E112 LineTooLong", "end"], most=most)
        yield script(" " * 8192 + "\n\n" + "\t" * 8193, ["refused E112 LineTooLong"], most=most)
        yield script("list\n" + "z" * 9000, ["end"], "Err(Read(BrokenPipe))", most=most, read="BrokenPipe")


RUNS = [pieces, failing_reads, faulty_writes, long_lines]
