"""A scene that is played again and again, with each write refused in turn, or the program killed behind each: three containers come,
one of them moves to another node, a fourth comes, one ends, and one that had no CPUs of its own gets one."""

SCENE = [("create", "db", {"quota": 2, "mems": "1"}), ("create", "web", {"mems": "0"}), ("create", "net", {"quota": 2, "allowed": "4-7", "mems": "2"}),
         ("plan",), ("update", "db", {"quota": 2, "mems": "3"}), ("create", "big", {"quota": 2, "mems": "1"}), ("plan",),
         ("end", "net"), ("update", "web", {"quota": 1, "mems": "2"}), ("plan",)]
WRITES = range(25, 60)  # how many calls of the system it comes to, at least and at most


class Scene:
    """How far it has come: which containers are wanted, and how often a write was refused."""

    def __init__(self, run, containers):
        self.run, self.all = run, containers
        self.wanted, self.refused, self.states = [], 0, 0

    def play(self, before=None):
        for act in SCENE:
            if before:
                before(act)
            getattr(self, act[0])(*act[1:])
            self.check(act)

    def check(self, where):
        self.states += self.all.check(where) > 0

    def tried(self, ask, answered):
        """Asks until it is answered so; a write may be refused on the way."""
        for _ in range(4):
            answer = ask()
            if answer.startswith(answered):
                return
            assert answer == "refused E50 KernelFault", answer
            self.refused += 1
            self.check("behind a write that was refused")
        raise AssertionError(f"{answer} again and again")

    def create(self, name, section):
        self.wanted.append(name)
        self.tried(lambda: self.all.create(self.run, name, **section), "pid")

    def update(self, name, section):
        bundle = self.all.bundle(name, **section)
        self.tried(lambda: self.run.one(f"update {name} {bundle}"), "ok")

    def end(self, name):
        self.wanted.remove(name)
        self.tried(lambda: self.run.one(f"kill {name} KILL"), "ok")
        self.tried(lambda: self.run.one(f"delete {name}"), "ok")
        del self.all.there[name]

    def plan(self):
        self.last = self.handed_over(lambda: None)

    def handed_over(self, look, plan=None):
        """A hand-over in single writes, with a look behind each; a new one where a write is refused."""
        while True:
            plan = plan or self.run.plan("begin")
            assert plan.total is not None, plan.lines
            answer = "more"
            while answer == "more":
                answer = self.run.one("step")
                self.check("between two writes")
                look()
            if answer == "done":
                break
            assert answer == "refused E50 KernelFault", answer
            self.refused, plan = self.refused + 1, None
        self.all.check_plan(plan, "behind a plan")
        return plan
