"""Makes the first file system of the emulated machine: `image.py FOLDER [--desk] PROGRAM FILE..`. It has Python with the modules that are
used, the scripts of operators/, the folder linux/ of the tests, and these files with the libraries that they are linked with, in /app.
With --desk it has what a user has at hand besides: a shell, the commands of Debian's packages, and the pages and examples, with the
program where it is built."""

import compileall
import os
import py_compile
import re
import shutil
import subprocess
import sys

HERE = os.path.dirname(os.path.abspath(__file__))
TOP = os.path.dirname(os.path.dirname(HERE))
MODULES = """__future__ _strptime argparse bisect collections contextlib copy ctypes dataclasses datetime encodings.ascii encodings.latin_1
encodings.utf_8 enum errno fcntl gettext importlib itertools json linecache locale logging math os pathlib random re resource select selectors
shlex shutil signal site socket subprocess sys tarfile tempfile textwrap threading time tokenize traceback typing zlib""".split()
AT_A_DESK = "html pyexpat xml.etree.ElementTree".split()
PACKAGES = "bash dash coreutils sed grep mawk findutils gzip tar dpkg diffutils hwloc-nox hwloc".split()


def put(root, path, place=None):
    """Copies a file to the same place, or to this one."""
    to = root + (place or path)
    os.makedirs(os.path.dirname(to), exist_ok=True)
    shutil.copy2(path, to)


def put_linked(root, path, place=None):
    """Copies a program or a library, and the libraries that it is linked with."""
    put(root, path, place)
    found = subprocess.run(["ldd", path], stdout=subprocess.PIPE, stderr=subprocess.DEVNULL, text=True).stdout
    for library in re.findall(r"(?:=> |^\s*)(/\S+) \(", found, re.M):
        put(root, library)


def files_of_python(more):
    """The program, and the files of the modules that are loaded by all these."""
    script = f"import {', '.join([*MODULES, *more])}\nprint(os.path.realpath(sys.executable))\n" + \
        "for one in list(sys.modules.values()):\n    if getattr(one, '__file__', None): print(one.__file__)\n"
    return subprocess.run([sys.executable, "-S", "-E", "-B", "-c", script], stdout=subprocess.PIPE, text=True, check=True).stdout.split("\n")[:-1]


def is_binary(path):
    """Whether a file of the image is a program or a library. A link is none, as it leads to this host's own file."""
    if os.path.islink(path):
        return False
    with open(path, "rb") as file:
        return file.read(4) == b"\x7fELF"


def put_desk(root, program):
    """The commands of some packages, and what else of the checkout a user reads and types."""
    listed = subprocess.run(["dpkg", "-L", *PACKAGES], stdout=subprocess.PIPE, stderr=subprocess.DEVNULL, text=True).stdout.split()
    commands = {os.path.basename(path): path for path in [*listed, "/sbin/ldconfig", "/usr/bin/lstopo"] if re.search(r"/s?bin/[^/]+$", path) and os.path.isfile(path)}
    for name, path in commands.items():
        put_linked(root, os.path.realpath(path), f"/usr/bin/{name}")
    os.symlink("mawk", f"{root}/usr/bin/awk")
    for name in ("sh", "bash"):
        os.symlink(f"/usr/bin/{name}", f"{root}/bin/{name}")
    for name in ("docs", "examples", "operators"):
        shutil.copytree(os.path.join(TOP, name), f"{root}/numarun/{name}", ignore=shutil.ignore_patterns("__pycache__"))
    if shutil.which("dh_python3"):  # the package is made here, since what makes it is no part of a small machine
        words = ["bash", os.path.join(TOP, "operators", "install.sh"), "--deb", root]
        subprocess.run(words, env={**os.environ, "PROGRAM": program}, stdout=subprocess.DEVNULL, check=True)
    put(root, program, "/numarun/crates/numarun/out/numarun")


def main(root, *files):
    desk = "--desk" in files
    program, *_ = files = [path for path in files if path != "--desk"]
    for place in ("proc", "sys", "dev", "tmp", "run", "root", "app", "bin"):
        os.makedirs(os.path.join(root, place))
    python, *modules = files_of_python(AT_A_DESK if desk else [])
    put_linked(root, python)
    os.symlink(python, f"{root}/bin/python3")
    os.makedirs(f"{root}/usr/bin", exist_ok=True)
    if not os.path.lexists(f"{root}/usr/bin/python3"):
        os.symlink(python, f"{root}/usr/bin/python3")  # by which the programs of Debian's packages name it
    put_linked(root, "/usr/bin/env")
    for path in modules:
        put_linked(root, path) if path.endswith(".so") else put(root, path)
    if desk:
        put_desk(root, program)
    put(root, os.path.join(TOP, "README.md"), "/numarun/README.md")
    for folder in ("operators", "tests/linux"):
        for place, _, names in os.walk(os.path.join(TOP, folder)):
            for name in names:
                if name.endswith((".py", ".json", ".md")) or name.startswith("numarun-"):
                    path = os.path.join(place, name)
                    put(root, path, "/numarun/" + os.path.relpath(path, TOP))
    for path in files:
        put_linked(root, os.path.realpath(path), f"/app/{os.path.basename(path)}")
    # No time of a file counts there, since not every kernel keeps these when it unpacks them.
    stripped = [path for place, _, names in os.walk(root) for path in (os.path.join(place, name) for name in names) if is_binary(path)]
    subprocess.run(["strip", "--strip-unneeded", *stripped], stderr=subprocess.DEVNULL)
    compileall.compile_dir(root, quiet=1, maxlevels=20, invalidation_mode=py_compile.PycInvalidationMode.UNCHECKED_HASH, stripdir=root)
    put(root, os.path.join(HERE, "init"), "/init")
    os.chmod(f"{root}/init", 0o755)


main(*sys.argv[1:])
