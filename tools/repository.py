"""What the scripts of this repository share: its crates, and the libraries that each depends on."""
import os, pathlib, re, signal, subprocess, sys

root = pathlib.Path(__file__).resolve().parent.parent
# About the processor minutes of a proof from nothing, by the table that CI prints: of the vector with the libraries
# below it, and of the whole library. README.md and docs/guide/start.md have the same numbers.
VECTOR_MINUTES, LIBRARY_MINUTES = 8, 75


def tell_help(page):
    """Prints a tool's docstring and ends the tool, if its argument is -h or --help."""
    if {"-h", "--help"} & set(sys.argv[1:]):
        # the process that reads the output, as `head`, may end first
        signal.signal(signal.SIGPIPE, signal.SIG_DFL)
        print(page.strip())
        sys.exit(0)


def lines(top=root):
    """The line of crates.txt of each crate, by its name, in the file's order."""
    found = {}
    for line in (top / "crates.txt").read_text().splitlines():
        line = line.split("#")[0].strip()
        if line:
            found[line.split(":")[0].split()[0]] = line
    return found


def libraries(name, crates=None):
    """The repository's own libraries that the crate's line names."""
    crates = crates or lines()
    return [it for it in crates[name].split(":")[1].split() if it in crates]


def stands_on(*names, top=root):
    """These crates and the repository's own libraries below them, each after those that it depends on."""
    found, crates = [], lines(top)

    def add(name):
        if name not in found:
            for it in libraries(name, crates):
                add(it)
            found.append(name)

    for name in names:
        add(name)
    return found


def files_below(folder):
    """The files in a folder and in those below it that belong to the sources, in the order of their paths."""
    made = {"out", "must-fail", "definition-faults", "__pycache__"}
    found = (it for it in folder.rglob("*") if it.is_file())
    return sorted(it for it in found if not made & set(it.relative_to(folder).parts))


def is_example(name):
    return name.startswith("example_")


def examples(top=root):
    return [it for it in lines(top) if is_example(it)]


def is_unproved(name):
    """Whether a crate is only built and run: a test crate, but for the callers' tests, or the program that bench/run
    measures."""
    return name == "elsa_bench" or name.startswith("test_") and name != "test_callers"


def is_program(name):
    return (root / "crates" / name / "src" / "main.rt").is_file()


def source_lines(name):
    return [
        line.strip() for it in (root / "crates" / name / "src").rglob("*.rt") for line in it.read_text().splitlines()
    ]


def tests_in(name):
    """The number of the crate's tests."""
    return source_lines(name).count("#[test]")


def specs_file(path):
    """The file of a module of specs/, as elsa_maps.specs.FirstWins."""
    crate, _, *below = path.split(".")
    return root / "crates" / crate / "specs" / ("/".join(below) + ".antt")


def line_of(name, text):
    """The line of a text of specs/ at which a definition begins, or None."""
    begins = re.compile(rf" *(?:pub |abbrev |unfoldable |record |data )*{re.escape(name)}(?: [({{].*)? :")
    return next((at for at, line in enumerate(text.split("\n")) if begins.match(line)), None)


def origin(name, file):
    """The file of specs/ that has a definition: this file, or the one of which it is a second name."""
    text = file.read_text() if file.is_file() else ""
    if line_of(name, text) is None:
        for path, names in re.findall(r"^(?:pub )?use Rattle\.(elsa\w*\.specs\.[\w.]+)\.\{([^}]*)\}", text, re.M):
            if name in re.findall(r"[\w-]+", names):
                return origin(name, specs_file(path))
    return file


def processors():
    """The number of processors that this process may run on."""
    return len(os.sched_getaffinity(0))


def descendants(process, is_last=lambda _: False):
    """The processes that this one has started, directly or through others, each with the processor seconds that it and
    the children that it has waited for have used. Those below a process with `is_last` are added to it."""
    children, spent, found, left = {}, {}, {}, [(process, process)]
    for it in pathlib.Path("/proc").glob("[0-9]*/stat"):
        try:
            words = it.read_text().rpartition(")")[2].split()
        except OSError:
            continue
        children.setdefault(int(words[1]), []).append(int(it.parent.name))
        spent[int(it.parent.name)] = sum(map(int, words[11:15])) / os.sysconf("SC_CLK_TCK")
    while left:
        it, owner = left.pop()
        owner = it if not is_last(owner) else owner
        found[owner] = found.get(owner, 0) + spent.get(it, 0)
        left += [(child, owner) for child in children.get(it, [])]
    return found


def seconds(count):
    """A time as minutes and seconds."""
    return f"{int(count) // 60}:{int(count) % 60:02}"


def program_sources():
    """The checksum that ./elsa keeps with a proved program: that of the sources from which it was built."""
    return subprocess.run([root / "tools" / "program_sources"], capture_output=True, text=True, check=True).stdout
