"""Which definitions a clause rests on: followed by name from the clause, through the imports of src/ and specs/.

closure.py                fails where docs/reading.md or README.md differ from what it finds
closure.py --write        writes the lists and figures into both, between their markers
closure.py --list         prints each definition of each clause with its place
closure.py --text CLAUSE  prints the definitions of one, as check or rebalance, in an order to read them, with comments and texts
closure.py --size         prints how many mutants, functions and lines of each kind there are

What is followed: the words of the clause, by the `ghost use` lines of its file; of each definition the words of its text,
by the `use` lines of its page. What a name in a type's declaration stands for (src/) is listed and not followed.
"""

import pathlib
import re
import signal
import sys

TOP = pathlib.Path(__file__).resolve().parents[2]
sys.path[:0] = [str(TOP / "tests/pages")]
import specs
WORD = re.compile(r"[A-Za-z_][\w'-]*")
HEAD = re.compile(r"^(?:(?:abbrev|unfoldable|record|data|pub) )*([A-Za-z_][\w'-]*)")
INNER = re.compile(r"^ +(?:pub )?(?:abbrev|unfoldable|record|data) ")
USE = re.compile(r"^ *(?:ghost )?use Rattle\.(\w+)\.specs\.([\w.]+?)(?:\.\{(.*)\}| as (\w+));?$")

# A title, a crate, a file of src/, a function there, and its clauses, with those of its `requires` that are part of the claim; a
# clause without a name is "". A clause may be a field of the record that a clause without a name says to hold.
CLAUSES = [
    ("check_plan", "certificate", "checks.rt", "check_plan", "least"),
    ("check", "certificate", "checking.rt", "check", "best"),
    ("check_text", "certificate_text", "checking.rt", "check_text", "least"),
    ("solve", "transport", "solver.rt", "solve", "decided"),
    ("rebalance", "node", "planning.rt", "rebalance", "headline"),
    ("rebalance_told", "node", "planning.rt", "rebalance", "told"),
    ("rebalance_broken", "node", "planning.rt", "rebalance", "broken"),
    ("each_rebalance", "node", "laws.rt", "each_rebalance", ""),
    ("scripts_serve_configs", "runtime", "laws.rt", "scripts_serve_configs", ""),
    ("run_mirrored", "strangers", "mirrored.rt", "run_mirrored", "mirrored"),
    ("boot_mirrored", "runtime", "booting.rt", "boot_mirrored", "site boots mirrored"),
    ("scripts_are_told", "runtime", "laws.rt", "scripts_are_told", "lines first"),
    ("plans_keep_off", "strangers", "laws.rt", "plans_keep_off", "plans requests stay"),
    ("do_run_mirrored", "cli", "mirroring.rt", "do_run_mirrored", ""),
    ("partitions", "runtime", "laws.rt", "partitions", ""),
]
# Of these only the pages are listed.
LONG = {"each_rebalance", "scripts_serve_configs", "scripts_are_told", "plans_keep_off", "do_run_mirrored"}


def imports(lines):
    """What each word stands for that `use` lines name: a crate, a page and the name there; a page's other name has no name."""
    found = {}
    for line in lines:
        use = USE.match(line)
        if not use:
            continue
        crate, page, names, other = use.groups()
        if other:
            found[other] = (crate, page, "")
            continue
        for name in names.split(","):
            told, *renamed = name.strip().split(" as ")
            found[(renamed or [told])[0].strip()] = (crate, page, told.strip())
    return found


class Page:
    """A page of specs/: the lines of each definition, and what its words stand for."""

    def __init__(self, path):
        lines = path.read_text(encoding="utf-8").splitlines()
        self.words, self.definitions, self.owners, name, modules = imports(lines), {}, {}, None, []
        for line in lines:
            indent = len(line) - len(line.lstrip())
            if line.lstrip().startswith("module "):
                name, modules = None, [*modules[:indent // 2], line]
                continue
            if not line.strip() or line.lstrip().startswith("--") or line.startswith(("use ", "unfolding ")):
                continue
            top, inner = not line.startswith((" ", "}")), indent <= 2 * len(modules) and INNER.match(line)
            if top or inner:
                name = HEAD.match(line.strip()).group(1) if HEAD.match(line.strip()) else name
                modules = modules[:indent // 2]
            if name:
                kept = self.definitions.setdefault(name, ["\n".join(modules), []])
                kept[1].append(line)
                case = re.match(r"^  ([A-Za-z_][\w'-]*) *:", line)
                if case and re.match(r"(pub )?data ", kept[1][0]):
                    self.owners[case.group(1)] = name

    def owner(self, name):
        """The definition that has this name: its own, or the `data` of which it is a case."""
        return name if name in self.definitions else self.owners.get(name)

    def text(self, name):
        module, lines = self.definitions[name]
        return "\n".join([module, *lines])


class Sources:
    """All pages of specs/, read when they are asked for."""

    def __init__(self):
        self.pages = {}

    def page(self, crate, page):
        path = TOP / "crates" / crate / "specs" / (page.replace(".", "/") + ".antt")
        if (crate, page) not in self.pages:
            self.pages[crate, page] = Page(path) if path.is_file() else None
        return self.pages[crate, page]

    def closure(self, roots):
        """Definitions that these rest on; types and constants of src/; words of the toolchain."""
        definitions, declared, kit, waiting = set(), set(), set(), list(roots)
        while waiting:
            place = waiting.pop()
            crate, page, name = place
            if not (TOP / "crates" / crate).is_dir():
                kit.add(name)
            elif page.startswith("declared."):
                declared.add((crate, name if page.endswith("TheConstants") else type_of(page)))
            elif name:
                place = self.whole(crate, page, name)
                read = self.page(crate, page)
                if read is None or place[2] not in read.definitions:
                    sys.exit(f"{crate} {page}: no definition {name}")
                if place not in definitions:
                    definitions.add(place)
                    waiting += self.named(*place)
        return definitions, declared, kit - {""}

    def named(self, crate, page, name):
        """What the words of a definition stand for."""
        read, text = self.page(crate, page), self.page(crate, page).text(name)
        for word in set(WORD.findall(text)):
            if word in read.words and not read.words[word][2]:
                there, at, _ = read.words[word]
                parts = [self.whole(there, at, part) for part in re.findall(rf"(?<![\w.]){word}\.({WORD.pattern})", text)]
                yield from (p for p in parts if not self.page(there, at) or p[2] in self.page(there, at).definitions)
            elif word in read.words:
                yield self.whole(*read.words[word])
            elif read.owner(word) not in (None, name):
                yield crate, page, read.owner(word)

    def field(self, crate, page, name, field):
        """What the words of a record's field stand for; none where it has no such field."""
        read = self.page(crate, page)
        text = read.text(name) if read and name in read.definitions else ""
        found = re.search(rf"^  pub {field} :(.*(?:\n   .*)*)", text, re.MULTILINE)
        return [self.whole(*read.words[word]) for word in WORD.findall(found[1]) if word in read.words] if found else []

    def whole(self, crate, page, name):
        """The definition that a name belongs to: a case is of its `data`."""
        read = self.page(crate, page)
        return crate, page, read and read.owner(name) or name

    def size(self, definitions):
        return sum(len(self.page(crate, page).definitions[name][1]) for crate, page, name in definitions)


def type_of(page):
    """The type of src/ that a page of its declarations is of."""
    parts = page.split(".")
    return parts[-2] if parts[-1] == "TheVariants" else parts[-1]


def roots(sources, crate, file, function, clause):
    """What the words of these clauses of a function in src/ stand for."""
    path = TOP / "crates" / crate / "src" / file
    text = path.read_text(encoding="utf-8")
    at = re.search(rf"\bfn {function}\b", text)
    words, named = imports(text.splitlines()), []
    for name in clause.split() or [""]:
        found = clause_text(text, at, name)
        if found is not None:
            named += [words[word] for word in WORD.findall(found) if word in words]
            continue
        whole = [words[word] for word in WORD.findall(clause_text(text, at, "") or "") if word in words]
        fields = [part for place in whole for part in sources.field(*place, name)]
        if not fields:
            sys.exit(f"{crate}/src/{file}: {function} has no clause {name or 'without a name'}")
        named += fields
    return named


def clause_text(text, at, name):
    """The text of a function's clause, if it has one of this name."""
    found = re.compile(rf"\b(?:requires|ensures) {f'{name} ' if name else ''}{{").search(text, at.start()) if at else None
    if not found or re.search(r"\n *(?:pub(?:\(crate\))? )?fn ", text[at.start():found.start()]):
        return None
    return text[found.start():text.index("}\n", found.start())]


class Models:
    """What contracts see of the types of src/: the `view` of each `impl Model`, of a signature's types and their fields."""

    def __init__(self):
        self.texts = {}

    def files(self, crate):
        if crate not in self.texts:
            found = (TOP / "crates" / crate / "src").rglob("*.rt")
            self.texts[crate] = [path.read_text(encoding="utf-8") for path in sorted(found)]
        return self.texts[crate]

    def place(self, crate, name):
        """The crate of a type and the text of its file, through what a crate hands on."""
        for text in self.files(crate):
            if re.search(rf"^(?:pub(?:\(crate\))? )?(?:struct|enum) {name}\b", text, re.MULTILINE):
                return crate, text
        for text in self.files(crate):
            for other in re.findall(rf"^pub use (\w+)::[^;]*\b{name}\b", text, re.MULTILINE):
                if (TOP / "crates" / other).is_dir():
                    return self.place(other, name)
        return None

    def crate_of(self, crate, text, name):
        """The crate from which a file has a type of this name: its own, where no `use` names it."""
        use = re.search(rf"^(?:pub )?use (\w+)::[^;]*\b{name}\b", text, re.MULTILINE)
        return crate if not use or use[1] in ("crate", "super", "self") else use[1]

    def of(self, crate, file, function):
        """The types that a function's signature leads to, and what the words of their views stand for."""
        text = (TOP / "crates" / crate / "src" / file).read_text(encoding="utf-8")
        signature = re.search(rf"\bfn {function}\b.*?(?=\n *(?:requires|ensures|\{{))", text, re.DOTALL)[0]
        if "self" in signature:
            signature += re.findall(r"^impl[^\n]*", text, re.MULTILINE)[-1]
        found, named, waiting = set(), [], [(crate, text, name) for name in re.findall(r"\b[A-Z]\w+", signature)]
        while waiting:
            crate, text, name = waiting.pop()
            owner = self.crate_of(crate, text, name)
            there = (TOP / "crates" / owner).is_dir() and self.place(owner, name)
            if not there or (there[0], name) in found:
                continue
            owner, text = there
            found.add((owner, name))
            body = re.search(rf"^(?:pub(?:\(crate\))? )?(?:struct|enum) {name}\b.*?(?:^\}}|;$)", text, re.DOTALL | re.MULTILINE)[0]
            plain = re.sub(r"//.*", "", body)
            waiting += [(owner, text, field) for field in re.findall(r"\b[A-Z]\w+", plain)]
            model = re.search(rf"^impl[^\n]* Model for {name}\b.*?^\}}", text, re.DOTALL | re.MULTILINE)
            if model:
                words = imports(text.splitlines())
                view = re.search(r"ghost view = .*?(?=\n\n|\n\}})", model[0], re.DOTALL)
                named += [words[word] for word in WORD.findall(view[0] if view else "") if word in words]
        return found, named


def crates():
    """The crates, the lowest first."""
    lines = (TOP / "crates.txt").read_text(encoding="utf-8").splitlines()
    return [line.split(":")[0] for line in lines if ":" in line and not line.startswith("#")]


def in_order(sources, definitions):
    """The pages of these definitions, each behind all that its definitions name."""
    order, places, done = crates(), {}, []
    for crate, page, name in definitions:
        places.setdefault((crate, page), set()).add(name)

    def visit(at):
        if at in done or at in visiting:
            return
        visiting.add(at)
        below = {found[:2] for name in places[at] for found in sources.named(*at, name) if found in definitions}
        for other in sorted(below - {at}, key=lambda p: (order.index(p[0]), p[1])):
            visit(other)
        done.append(at)

    visiting = set()
    for at in sorted(places, key=lambda p: (order.index(p[0]), p[1])):
        visit(at)
    by_place = {at: [n for n in sources.page(*at).definitions if n in places[at]] for at in done}
    return [(at, by_place[at]) for at in sorted(done, key=lambda p: (order.index(p[0]), done.index(p)))]


def figures(found):
    """The table of docs/reading.md."""
    yield "| What is claimed | Clause | Definitions | Lines | Pages | Lines for its types |"
    yield "|---|---|---|---|---|---|"
    for title, says in SAYS.items():
        definitions, sources = found[title]["definitions"], found[title]["sources"]
        crate, file, function, clause = found[title]["clause"]
        name = ", ".join(f"`{word}`" for word in [f"laws::{function}" if file == "laws.rt" else function, *clause.split()])
        pages = len({place[:2] for place in definitions})
        views = sources.size(found[title]["views"]) or ""
        yield f"| {says} | {name} of `{crate}` | {len(definitions)} | {sources.size(definitions):,} | {pages} | {views} |"


def believed(found):
    """How little that is, as README.md says it."""
    def lines(title, key="definitions", without=frozenset()):
        return f"{found[title]['sources'].size(found[title][key] - without):,}"

    yield "| To believe | one reads so many lines of definitions | and so many on its types |"
    yield "|---|---|---|"
    for title, says in BELIEVED.items():
        yield f"| {says} | {lines(title)} | {lines(title, 'views')} |"
    added = lines("rebalance_told", without=found["rebalance"]["definitions"])
    yield f"| besides, whom a shortage names (`told`) | {added} more | |"


BELIEVED = {
    "check": "a yes of the check, to a certificate in memory",
    "check_text": "a yes of `numarun check`, to a text",
    "rebalance": "the headline, of one `rebalance`",
}


SAYS = {
    "check_plan": "the checker's yes to a plan: none costs less",
    "check": "its yes to a certificate, moves and shortages too",
    "check_text": "its yes to a certificate's text, as `numarun check` reads it",
    "solve": "the solver's answer: optimal, or no plan exists",
    "rebalance": "the headline, of one rebalance",
    "rebalance_told": "what the certificate tells of it",
    "rebalance_broken": "what a failed write leaves of it",
    "each_rebalance": "the headline, over all runs",
    "scripts_serve_configs": "the same, from a script's text and the configs' bytes",
    "run_mirrored": "`run --cgroup`: what the tree's files are asked for, and what they then have",
    "boot_mirrored": "that it begins so, at this root and on this machine",
    "scripts_are_told": "which writing calls of the kernel the lines of a script stand for",
    "plans_keep_off": "`--adopt`: no plan gives a CPU that a folder of a run before holds to anybody",
    "do_run_mirrored": "what `run --cgroup` does up to the end of its script, by its arguments, files and streams",
    "partitions": "`--partition`: no group outside has a container's CPU in effect, if the kernel's rule holds",
}


def listing(title, found, seen):
    """The lists of one clause, without what the lists before it have (`seen`, which gains what these have)."""
    sources, new = found["sources"], {key: found[key] - seen[key] for key in seen}
    pages = []
    for (crate, page), names in in_order(sources, found["definitions"]):
        fresh = [name for name in names if (crate, page, name) in new["definitions"]]
        if fresh:
            pages.append((crate, page, fresh))
    yield f"List `{title}`:"
    yield ""
    if title in LONG:
        of_crate = {}
        for crate, page, _ in pages:
            of_crate.setdefault(crate, []).append(f"`{page}`")
        yield "| Crate | Pages of its `specs/` |"
        yield "|---|---|"
        yield from (f"| `{crate}` | {', '.join(names)} |" for crate, names in of_crate.items())
    else:
        yield "| Page | Definitions | Lines |"
        yield "|---|---|---|"
        for crate, page, names in pages:
            lines = sources.size([(crate, page, name) for name in names])
            path = f"../crates/{crate}/specs/{page.replace('.', '/')}.antt"
            yield f"| [`{crate}` `{page}`]({path}) | {', '.join(f'`{n}`' for n in names)} | {lines} |"
    views = {(crate, name) for crate, _, name in new["views"]}
    told = [
        ("Types and constants of `src/` that they name", by_crate(new["declared"]), new["declared"]),
        ("Types of the call, seen by `impl Model` where one has it", by_crate(new["types"]), new["types"]),
        ("Definitions by which these are seen", by_crate(views), views),
        ("Words of the kit", ", ".join(f"`{name}`" for name in sorted(new["kit"], key=lambda word: (word.lower(), word))), new["kit"]),
    ]
    yield ""
    yield from (f"- {what}: {names}." for what, names, some in told if some)
    for key in seen:
        seen[key] |= new[key]


def by_crate(places):
    """Names with the crate of each, the lowest crate first."""
    names, order = {}, crates()
    for crate, name in sorted(places):
        names.setdefault(crate, []).append(f"`{name}`")
    kept = sorted(names.items(), key=lambda item: order.index(item[0]))
    return "; ".join(f"{', '.join(n)} of `{c}`" for c, n in kept) or "none"


def print_text(found):
    """The definitions of a clause, page by page, each behind all that it names."""
    signal.signal(signal.SIGPIPE, signal.SIG_DFL)  # who reads it may have seen enough
    sources = found["sources"]
    for (crate, page), names in in_order(sources, found["definitions"]):
        path = TOP / "crates" / crate / "specs" / f"{page.replace('.', '/')}.antt"
        print(f"## {path.relative_to(TOP)}\n")
        for definition in specs.definitions(specs.lines_of(path)):
            if definition.name in names:
                print("\n".join([*(f"-- {line}" for line in definition.comment), *definition.text, ""]))


# What README.md says of the size: the words there, the files that are looked through, and a line that counts.
SIZES = [
    (r"some ([\d,]+) mutants", "*/must-fail/*.edit", r"file: .*"),
    (r"some ([\d,]+) functions", "*/src/**/*.rt", r" *(pub(\([\w:]+\))? )?(const )?fn \w.*"),
    (r"functions in ([\d,]+) lines", "*/src/**/*.rt", ".*"),
    (r"([\d,]+) lines of definitions", "*/specs/**/*.antt", ".*"),
    (r"([\d,]+) lines of other proofs", "*/proofs/**/*.antt", ".*"),
]
NEAR = 0.03  # how far a number that is said may be from what is counted


def counted():
    """How many there are of each."""
    for _, files, line in SIZES:
        texts = (path.read_text(encoding="utf-8") for path in (TOP / "crates").glob(files))
        yield sum(bool(re.fullmatch(line, there)) for text in texts for there in text.splitlines())


def sized(text):
    """README.md with each size that is not near enough made anew by two digits."""
    for (words, _, _), count in zip(SIZES, counted()):
        said = re.search(words, text)
        if not said:
            sys.exit(f"README.md: no words for {words}")
        if abs(int(said[1].replace(",", "")) - count) > NEAR * count:
            text = f"{text[:said.start(1)]}{round(count, 2 - len(str(count))):,}{text[said.end(1):]}"
    return text


def marked(name):
    return f"<!-- {name}: by tests/reading/closure.py -->", f"<!-- end of {name} -->"


def between(text, name, new):
    """The text with what stands between these markers in place of what stood there, or with nothing where there are none."""
    first, last = marked(name)
    start, end = text.find(first), text.find(last)
    if start < 0 or end < 0:
        return None
    return text[:start + len(first)] + "\n" + new + "\n" + text[end:]


def misquoted(text):
    """What docs/reading.md quotes of a file that does not stand there, line by line and in that order."""
    for file, block in re.findall(r"<!-- from (\S+) -->\n```\w+\n(.*?)```", text, re.DOTALL):
        there = iter(line.strip() for line in (TOP / file).read_text(encoding="utf-8").splitlines())
        for line in filter(None, map(str.strip, block.splitlines())):
            if line not in there:
                yield f"docs/reading.md quotes a line that is not in {file}, or not there: {line}"
                break


def main():
    if "--size" in sys.argv:
        print("\n".join(words.replace(r"([\d,]+)", f"{count:,}") for (words, _, _), count in zip(SIZES, counted())))
        return
    found, sections = {}, {}
    seen = {key: set() for key in ("definitions", "declared", "types", "views", "kit")}
    sources, models = Sources(), Models()
    for title, crate, file, function, clause in CLAUSES:
        definitions, declared, kit = sources.closure(roots(sources, crate, file, function, clause))
        types, named = models.of(crate, file, function)
        views = sources.closure(named)[0] - definitions
        found[title] = {"definitions": definitions, "declared": declared, "kit": kit, "sources": sources, "types": types,
                        "views": views, "clause": (crate, file, function, clause)}
        sections[title] = "\n".join(listing(title, found[title], seen))
        if "--list" in sys.argv:
            for place in sorted(definitions):
                print(title, *place)
    if "--text" in sys.argv:
        title = sys.argv[-1]
        print_text(found[title]) if title in found else sys.exit(f"no such clause; there are {', '.join(found)}")
        return
    sections["figures"], sections["believe"] = "\n".join(figures(found)), "\n".join(believed(found))
    wrong = []
    for file, names in (("docs/reading.md", [name for name in sections if name != "believe"]), ("README.md", ["believe"])):
        path = TOP / file
        text = path.read_text(encoding="utf-8")
        for name in names:
            new = between(text, name, sections[name])
            if new is None:
                wrong.append(f"{file}: no place for {name}")
                continue
            if new != text:
                wrong.append(f"{file}: {name} differs from what the sources say")
            text = new
        if file == "README.md" and sized(text) != text:
            wrong.append(f"{file}: a size is not near what is counted")
            text = sized(text)
        if "--write" in sys.argv:
            path.write_text(text, encoding="utf-8")
    quotes = list(misquoted((TOP / "docs/reading.md").read_text(encoding="utf-8")))
    if quotes or (wrong and "--write" not in sys.argv):
        sys.exit("\n".join([*wrong, *quotes, "write the lists anew by: python3 -B tests/reading/closure.py --write"]))
    print(*(f"{t} {len(f['definitions'])} definitions {sources.size(f['definitions'])} lines;" for t, f in found.items()))


main()
