"""Scripts over a kernel of which one write fails: `over_failing.py TOOLS`. What is answered, and what is in the kernel then, is
written down by hand.

`a` has three CPUs of node 1, and `b` comes, which asks for that node's four: `a` gives its own back and goes to node 0. Up to `b` in
its place the kernel is written thirteen times: once for the node's group, four times for each container (its group, CPUs, memory nodes
and first process), once for the plan of `a` alone, and three times to make room."""

from run import Run, config

BUNDLES = {
    "ba": config({"quota": 300000, "mems": "1"}),
    "bb": config({"quota": 400000, "cpus": "4-7", "mems": "1"}),
    "near": config({"quota": 300000, "mems": "0"}),
    "two": config({"quota": 200000, "mems": "0"}),
    "third": config({"quota": 100000, "cpus": "3"}),
    "shared": config({}),
}
FAULT = "refused E50 KernelFault"
PLAN_OF_A = "plan total 30\nhold a 4-6\npool 0-3,7\nend"
PLAN_OF_BOTH = "plan total 103\nhold a 1-3\nhold b 4-7\npool 0\nend"
BOTH_COME = [("create a ba", "pid 2"), ("rebalance", PLAN_OF_A), ("create b bb", "pid 3")]
BOTH_BEGIN = BOTH_COME + [("begin", PLAN_OF_BOTH)]
A_OLD = ("sets a", "cpus 4-6 effective 4-6 mems 1 effective 1")
A_RESERVED = ("sets a", "cpus 0 effective 0 mems 1 effective 1")
A_NEW = ("sets a", "cpus 1-3 effective 1-3 mems 1 effective 1")
B_RESERVED = ("sets b", "cpus 0 effective 0 mems 1 effective 1")
B_NEW = ("sets b", "cpus 4-7 effective 4-7 mems 1 effective 1")
SETTLED, UNSETTLED, UNDERWAY = ("phase", "settled"), ("phase", "unsettled"), ("phase", "underway")
MORE, DONE, FAILS = ("step", "more"), ("step", "done"), ("step", FAULT)
NONE_OPEN = ("step", "refused E100 NoHandover")
IN_PLACE = [A_NEW, B_NEW, SETTLED]
BY_STEPS = [("begin", PLAN_OF_BOTH), MORE, MORE, DONE] + IN_PLACE
AT_ONCE = [("rebalance", PLAN_OF_BOTH)] + IN_PLACE

# What the kernel has: the node's group, and one in it for each container.
HOME = ("find 0 numarun", "group 1")


def group_of(name, serial, cpus, mems, pids):
    """A container's group: its serial, what it requests, and whether it has a process."""
    processes = ("remove", "refused HasProcesses") if pids else ("remove", "ok")
    return [(f"find 1 {name}", f"group {serial}"), (f"cpus {serial}", f"ids {cpus}"), (f"mems {serial}", f"ids {mems}"),
            (f"{processes[0]} {serial}", processes[1])]


def no_group(name):
    return [(f"find 1 {name}", "none")]


def of_the_node():
    """The write of the node's group."""
    yield Run(0, BOTH_COME + BY_STEPS, [HOME] + group_of("a", 2, "1-3", "1", True) + group_of("b", 3, "4-7", "1", True))
    yield Run(14, BOTH_COME + BY_STEPS, [HOME])
    yield Run(1, [], [("find 0 numarun", "none"), ("make 0 numarun", "group 1")], ended="Fault(Failed)")


# What a create leaves whose first, second, third or fourth write failed.
LEFT = [None, ("-", "-"), ("0", "-"), ("0", "1")]


def of_creates():
    """A write of the first create fails, and of the second; what is left is found by the next create of the id."""
    for k, left in enumerate(LEFT):
        fails = [("create a ba", FAULT), ("list", "end"), ("sets a", "refused E94 NoContainer"), SETTLED]
        yield Run(2 + k, fails, [HOME] + (group_of("a", 2, *left, False) if left else no_group("a")) + [("spawn 0", "pid 2")])
        yield Run(2 + k, fails + BOTH_COME + BY_STEPS, [HOME] + group_of("a", 2, "1-3", "1", True) + group_of("b", 3, "4-7", "1", True))
        first = [("create a ba", "pid 2"), ("rebalance", PLAN_OF_A)]
        fails = [("create b bb", FAULT), ("list", "a created\nend"), A_OLD, ("sets b", "refused E94 NoContainer"), SETTLED]
        kernel = [HOME] + group_of("a", 2, "4-6", "1", True)
        yield Run(7 + k, first + fails, kernel + (group_of("b", 3, *left, False) if left else no_group("b")) + [("spawn 0", "pid 3")])
        yield Run(7 + k, first + fails + [("create b bb", "pid 3")] + BY_STEPS, [HOME] + group_of("b", 3, "4-7", "1", True))


def of_others():
    """Where a create of one id failed, another id gets a group of its own, and what is left is in the way of nothing."""
    for k, left in enumerate(LEFT):
        lines = [("create a ba", FAULT), ("create b bb", "pid 2"), ("list", "b created\nend")]
        serial = 3 if left else 2
        kernel = group_of("a", 2, *left, False) if left else no_group("a")
        yield Run(2 + k, lines, [HOME] + kernel + group_of("b", serial, "0", "1", True))
        lines += [("create a ba", "pid 3"), ("list", "b created\na created\nend")]
        yield Run(2 + k, lines, [HOME] + group_of("a", 2 if left else 3, "0", "1", True))


def of_the_first_plan():
    certificate = "numarun-certificate 2\nrow a 3 655361:4-7 1376257:1-3\nhold a 4-6 655361\ntotal 30 moves 3\nend"
    lines = [("create a ba", "pid 2"), ("rebalance", FAULT), A_RESERVED, UNSETTLED, ("certificate", certificate)]
    yield Run(6, lines, [HOME] + group_of("a", 2, "0", "1", True))
    yield Run(6, lines + [("rebalance", PLAN_OF_A), SETTLED, ("create b bb", "pid 3")] + BY_STEPS)


def of_steps():
    """A step fails, and the hand-over is over."""
    kept = [(11, [], [A_OLD, B_RESERVED]), (12, [MORE], [A_RESERVED, B_RESERVED]), (13, [MORE, MORE], [A_NEW, B_RESERVED])]
    for fail, steps, sets in kept:
        both = ("list", "a created\nb created\nend")
        yield Run(fail, BOTH_BEGIN + steps + [FAILS] + sets + [UNSETTLED, both, NONE_OPEN] + AT_ONCE)
        # In a rebalance, too; the next hand-over makes those writes alone that are still due.
        left = [MORE] * (13 - fail) + [DONE]
        yield Run(fail, BOTH_COME + [("rebalance", FAULT)] + sets + [UNSETTLED, ("begin", PLAN_OF_BOTH)] + left + IN_PLACE)
    third = [("create c shared", "pid 4"), UNSETTLED, ("sets c", "cpus 0 effective 0 mems 0-1 effective 0-1")]
    yield Run(12, BOTH_BEGIN + [MORE, FAILS] + third + AT_ONCE)


def of_what_is_kept():
    """Of its CPUs 1-3 the container keeps 1-2 until it has 4 too."""
    before = [("create a near", "pid 2"), ("rebalance", "plan total 30\nhold a 1-3\npool 0,4-7\nend"), ("offline 3", "ok"),
              ("rebalance", FAULT), UNSETTLED]
    after = [("rebalance", "plan total 41\nhold a 1-2,4\npool 0,5-7\nend"),
             ("sets a", "cpus 1-2,4 effective 1-2,4 mems 0 effective 0"), SETTLED]
    yield Run(7, before + [("sets a", "cpus 1-3 effective 1-2 mems 0 effective 0")] + after)
    yield Run(8, before + [("sets a", "cpus 1-2 effective 1-2 mems 0 effective 0")] + after)


def of_shared_ones():
    """The shared container gives CPU 3 back before `b` has it."""
    before = [("create s shared", "pid 2"), ("create a two", "pid 3"), ("rebalance", "plan total 20\nhold a 1-2\npool 0,3-7\nend"),
              ("create b third", "pid 4"), ("rebalance", FAULT), UNSETTLED, ("sets b", "cpus 0 effective 0 mems 0-1 effective 0-1")]
    after = [("rebalance", "plan total 30\nhold a 1-2\nhold b 3\npool 0,4-7\nend"),
             ("sets b", "cpus 3 effective 3 mems 0-1 effective 0-1"), SETTLED]
    yield Run(16, before + [("sets s", "cpus 0,3-7 effective 0,3-7 mems 0-1 effective 0-1")] + after)
    yield Run(17, before + [("sets s", "cpus 0,4-7 effective 0,4-7 mems 0-1 effective 0-1")] + after)


def of_ends():
    """The write of a kill fails, and of a delete."""
    created = ("create a ba", "pid 2")
    yield Run(6, [created, ("kill a 9", FAULT), ("list", "a created\nend")], [HOME] + group_of("a", 2, "0", "1", True))
    yield Run(6, [created, ("kill a 9", FAULT), ("kill a 9", "ok"), ("delete a", "ok"), ("list", "end")], [HOME] + no_group("a"))
    stopped = [created, ("kill a 9", "ok"), ("delete a", FAULT), ("list", "a stopped\nend")]
    yield Run(7, stopped, [HOME] + group_of("a", 2, "0", "1", False))
    yield Run(7, stopped + [("delete a", "ok"), ("list", "end")], [HOME] + no_group("a"))
    # The hand-over stays open where a write of another command fails, and its own writes go on.
    lines = [MORE, ("kill a 9", FAULT), UNDERWAY, ("list", "a created\nb created\nend"), MORE, DONE] + IN_PLACE
    yield Run(12, BOTH_BEGIN + lines)
    # Where a container that is waited for has ended nothing is due any more, and the write that would fail is not made.
    lines = [MORE, MORE, ("exit 3", "ok"), DONE, NONE_OPEN, ("list", "a created\nb stopped\nend"), A_NEW, B_RESERVED, SETTLED]
    yield Run(13, BOTH_BEGIN + lines, [HOME, ("make 0 x", "refused Failed"), ("make 0 x", "group 4")])


def of_events():
    """Events between the steps of which one fails, and of CPUs that were gone before."""
    for cpu in range(1, 8):
        gone = [(f"offline {cpu}", "ok")]
        back = [(f"online {cpu}", "ok")]
        yield Run(12, BOTH_BEGIN + gone + [MORE] + back + [A_RESERVED, B_RESERVED, FAILS, A_RESERVED, B_RESERVED, UNSETTLED] + AT_ONCE)
        yield Run(13, BOTH_BEGIN + gone + [MORE, MORE] + back + [A_NEW, B_RESERVED, FAILS, A_NEW, B_RESERVED, UNSETTLED] + AT_ONCE)
    for fail, steps in ((12, [MORE]), (13, [MORE, MORE])):
        ended = BOTH_BEGIN + steps + [FAILS, ("exit 2", "ok"), UNSETTLED]
        yield Run(fail, ended + [("rebalance", "plan total 40\nhold b 4-7\npool 0-3\nend"), B_NEW, SETTLED])


def of_standing_plans():
    """Where a plan stands no write is made: the one that would fail is left to the next call of the kernel."""
    next_fails = [HOME, ("make 0 x", "refused Failed"), ("make 0 x", "group 4")]
    again = [("rebalance", PLAN_OF_BOTH)] + IN_PLACE
    yield Run(14, BOTH_COME + AT_ONCE + again + again, next_fails)
    yield Run(14, BOTH_COME + AT_ONCE + [("begin", PLAN_OF_BOTH), UNDERWAY, DONE] + IN_PLACE, next_fails)
    # Nor is one where containers were adopted on the sets of a plan, nine writes behind the first.
    adopted = [("adopt a ba 1-3", "pid 2"), ("adopt b bb 4-7", "pid 3")]
    yield Run(10, adopted + again, next_fails)
    # Where `a` has what `b` asks for, a write is made, and it is the one that fails.
    yield Run(10, [("adopt a ba 4-6", "pid 2"), ("create b bb", "pid 3"), ("rebalance", FAULT), A_OLD, B_RESERVED, UNSETTLED])


def of_those_that_stay():
    """`a` has what it is to have, the shared container lets CPU 3 go, and `b` takes it: two writes, so none of `a`."""
    lines = [("create s shared", "pid 2"), ("create a two", "pid 3"), ("rebalance", "plan total 20\nhold a 1-2\npool 0,3-7\nend"),
             ("create b third", "pid 4"), ("rebalance", "plan total 30\nhold a 1-2\nhold b 3\npool 0,4-7\nend"),
             ("sets s", "cpus 0,4-7 effective 0,4-7 mems 0-1 effective 0-1"), SETTLED]
    yield Run(18, lines, [HOME, ("make 0 x", "refused Failed"), ("make 0 x", "group 5")])
    # One that lets a reserved CPU go beside another is written twice.
    lines = [("adopt a two 0-3", "pid 2"), ("rebalance", FAULT), ("sets a", "cpus 0-2 effective 0-2 mems 0 effective 0"), UNSETTLED]
    yield Run(7, lines)
    lines = [("adopt a two 0-3", "pid 2"), ("rebalance", "plan total 20\nhold a 1-2\npool 0,3-7\nend")]
    yield Run(8, lines, [HOME, ("make 0 x", "refused Failed"), ("make 0 x", "group 3")])


def of_retries():
    """A rebalance whose write failed, and one behind it: only what is still due is written, and then nothing is."""
    next_works = [HOME, ("make 0 x", "group 4")]
    for fail in (11, 12, 13):
        yield Run(fail, BOTH_COME + [("rebalance", FAULT), UNSETTLED] + AT_ONCE + AT_ONCE, next_works)


def of_direct_ones():
    """In the direct order `a` takes its free CPUs by one write, and `b` takes its own by the next one. A plan that stands takes none."""
    for fail, sets in ((11, [A_OLD, B_RESERVED]), (12, [A_NEW, B_RESERVED])):
        yield Run(fail, BOTH_COME + [("rebalance direct", FAULT)] + sets + [UNSETTLED, ("rebalance direct", PLAN_OF_BOTH)] + IN_PLACE)
    next_fails = [HOME, ("make 0 x", "refused Failed"), ("make 0 x", "group 4")]
    twice = [("rebalance direct", PLAN_OF_BOTH)] * 2 + IN_PLACE
    yield Run(13, BOTH_COME + twice, next_fails)


RUNS = [of_the_node, of_creates, of_others, of_the_first_plan, of_steps, of_what_is_kept, of_shared_ones, of_ends, of_events,
        of_standing_plans, of_those_that_stay, of_retries, of_direct_ones]
