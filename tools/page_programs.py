"""The programs of the pages, each with its output: the reference's examples (examples/reference/*.rt.txt), the recipes
(examples/recipes/*.rt.txt), the first program of README.md, those of docs/CALLING.md, and one that makes the imports of
docs/guide/errors.md."""
import re, sys

from repository import root

# The page that has the text and the output of each recipe.
RECIPES = root / "docs" / "guide" / "recipes.md"
# The page that has a table of names and of the paths from which they are imported.
ERRORS = root / "docs" / "guide" / "errors.md"
IMPORTS = re.compile(r"^\| ((?:`\w+`,? ?)+)(?:\(.*\) )?\| ((?:`[\w:]+`,? ?)+)\|$", re.M)
PRINTS = re.compile(r"^// prints: (.*)\n", re.M)
# A block of code of a page, and the output after it, if there is one.
BLOCK = re.compile(r"^```rust\n(.*?)^```$(?:\n\n```text\n(.*?)^```$)?", re.M | re.S)


def front_program():
    """The first program of README.md, and its output on the page."""
    found = BLOCK.search((root / "README.md").read_text())
    if not found or found[2] is None:
        sys.exit("page_programs: README.md has no program, or none with its output after it")
    return found[1], found[2]


def programs_in(folder):
    """The programs of a folder of examples/ by the name of a module: the file's name, its text without the last lines,
    and its output, which these lines have."""
    found = {}
    for file in sorted((root / "examples" / folder).glob("*.rt.txt")):
        text = file.read_text()
        prints = "".join(f"{line}\n" for line in PRINTS.findall(text))
        if not prints:
            sys.exit(f"page_programs: {file.name} has no line '// prints: ..' with its output")
        name = file.name.removesuffix(".rt.txt").replace("-", "_").lower()
        found[f"{folder}_{name}"] = (f"{folder}/{file.name}", PRINTS.sub("", text), prints)
    return found


def calling_programs():
    """The programs of docs/CALLING.md by the name of a module: a block of a part has the imports and the lines of a
    `main`, with its output in the last ones."""
    found = {}
    for part in re.split(r"^## ", (root / "docs" / "CALLING.md").read_text(), flags=re.M)[1:]:
        name = part[: part.index("\n")].strip("`")
        for text, _ in BLOCK.findall(part):
            imports = re.findall(r"^use .*\n", text, re.M)
            body = PRINTS.sub("", re.sub(r"^use .*\n", "", text, flags=re.M)).strip("\n")
            main = f"fn main(rt: HostRuntime) -> io::Result<()> {{\n{body}\nOk(())\n}}\n"
            prints = "".join(f"{line}\n" for line in PRINTS.findall(text))
            found[f"calling_{name}"] = (f"docs/CALLING.md, {name}", f"{''.join(imports)}use std::io;\n\n{main}", prints)
    return found


def imports_program():
    """A program that imports each name of the table of docs/guide/errors.md from each path of its row."""
    rows = IMPORTS.findall(ERRORS.read_text())
    if not rows:
        sys.exit("page_programs: docs/guide/errors.md has no table of imports")
    uses = [
        f"{path}::{{{', '.join(re.findall(r'[A-Za-z]+', names))}}}"
        for names, paths in rows
        for path in re.findall(r"[\w:]+", paths)
    ]
    modules = "".join(f"mod row_{number} {{\n    use {it};\n}}\n\n" for number, it in enumerate(uses))
    main = 'fn main(rt: HostRuntime) -> io::Result<()> {\n    println!(rt; "found")\n}\n'
    return f"use std::io;\n\n{modules}{main}"


def page_programs():
    """All programs by the name of a module: the name to show, its text and its output."""
    pages = {
        "of_readme": ("README.md", *front_program()),
        "of_errors": ("docs/guide/errors.md", imports_program(), "found\n"),
    }
    return pages | calling_programs() | programs_in("reference") | programs_in("recipes")


def recipes_fault():
    """How docs/guide/recipes.md differs from the files of the recipes, or an empty text. The page has each program with
    its output, and no other program."""
    shown = BLOCK.findall(RECIPES.read_text())
    kept = {name: (text, prints) for name, text, prints in programs_in("recipes").values()}
    changed = [name for name, it in kept.items() if it not in shown]
    if changed:
        return f"docs/guide/recipes.md doesn't have the text and the output of examples/{', '.join(changed)}"
    unknown = [text for text, prints in shown if "fn main(" in text and (text, prints) not in kept.values()]
    return f"docs/guide/recipes.md has a program that is not in examples/recipes:\n{unknown[0]}" if unknown else ""
