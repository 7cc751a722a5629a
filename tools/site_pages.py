"""The pages of the site, from those of the repository: what tools/site gives to mkdocs."""
import html, json, posixpath, re

from repository import root

# The pages outside of docs/, by their names on the site.
FURTHER = {"README.md": "index.md", "CHANGELOG.md": "changes.md", "CONTRIBUTING.md": "contributing.md"}
# The head of a page whose tables need the width of the list at the left.
WIDE = "---\nhide:\n  - navigation\n---\n"
# What begins a definition of a file in specs/.
DEFINITION = re.compile(r"^ *(?:(?:pub|abbrev|unfoldable|record|data) )+([\w-]+)", re.M)


def site_path(path, label=""):
    """The place on the site of a file of the repository, with a mark for the definition `label`; None without one."""
    specs = re.fullmatch(r"crates/(\w+)/specs/(.*)\.antt", path)
    source = re.fullmatch(r"crates/(?!example_)(\w+)/src/(.*)\.rt", path)
    example = re.match(r"crates/(example_\w+)", path)
    if specs:
        return f"definitions/{specs[1]}-{specs[2].replace('/', '-')}.md" + (f"#{label}" if label else "")
    if source:
        return f"sources/{source[1]}-{source[2].replace('/', '-')}.md"
    if example:
        return f"examples/{example[1]}.md"
    if path.startswith("crates/example_*"):
        return "examples/index.md"
    if path.startswith("docs/"):
        return path.removeprefix("docs/")
    return FURTHER.get(path, path if path.startswith("bench/") and path.endswith((".md", ".svg")) else None)


def outside_code(text, change):
    """The text with a change to what is not in a block of code."""
    parts = re.split(r"(^```.*?^```$)", text, flags=re.M | re.S)
    return "".join(it if it.startswith("```") else change(it) for it in parts)


def page_of(path, text):
    """A page of the repository as one of the site: its links lead to pages of the site, or become plain text."""
    own = site_path(path)

    def link(found):
        label, target, mark = found.groups()
        if re.match(r"[a-z]+:", target) or not target:
            return found[0]
        place = posixpath.normpath(posixpath.join(posixpath.dirname(path), target))
        name = label.strip("`")
        # the label is the name of a definition, or of its file
        there = site_path(place, "" if "/" in name else name.split(".")[-1])
        if there is None:
            return label
        return f"[{label}]({posixpath.relpath(there, posixpath.dirname(own) or '.')}{mark or ''})"

    def example(found):
        there = site_path(found[1])
        return f"[`{found[1]}`]({posixpath.relpath(there, posixpath.dirname(own) or '.')})" if there else found[0]

    def change(part):
        part = re.sub(r"(?<!\[)`(crates/example_[\w*][^`]*)`", example, part)
        part = part.replace("<details>", '<details markdown="1">')
        return re.sub(r"\[([^\[\]]+)\]\(([^)#\s]*)(#[^)]*)?\)", link, part)

    text = outside_code(text, change)
    # contracts are coloured as code
    return re.sub(r"(<summary>Contract</summary>\n\n)```text", r"\1```rust", text)


def definition_page(path):
    """A page for a file of specs/: what it defines, and a heading for each definition with its text."""
    text = (root / path).read_text()
    crate, name = re.fullmatch(r"crates/(\w+)/specs/(.*)\.antt", path).groups()
    page = [f"# Definitions: {name} of {crate}", "", f"`{path}`", ""]
    for block in re.split(r"\n{2,}", text.strip("\n")):
        names = DEFINITION.findall(block)
        page += [f"## {names[0]} {{: #{names[0]} }}", ""] if names else []
        page += [f'<a id="{it}"></a>' for it in names[1:]]
        page += ["", "```rust", block, "```", ""]
    return "\n".join(page)


def source_page(path):
    """A page for a file of src/."""
    crate, name = re.fullmatch(r"crates/(\w+)/src/(.*)\.rt", path).groups()
    return f"# Source: {name} of {crate}\n\n`{path}`\n\n```rust\n{(root / path).read_text()}```\n"


def example_pages():
    """A page for each example program, with all of its sources, and a page that lists them."""
    pages, listed = {}, []
    for folder in sorted((root / "crates").glob("example_*")):
        files = sorted((folder / "src").glob("*.rt"), key=lambda it: (it.name != "main.rt", it.name))
        doc = [it[3:].strip() for it in files[0].read_text().split("\n") if it.startswith("//!")]
        doc = re.sub(r"\[(`[^`]+`)\](?:\([^)]*\))?", r"\1", "\n".join(doc))
        page = [f"# {folder.name}", "", doc, "", f"`crates/{folder.name}`", ""]
        for file in files:
            code = re.sub(r"\A(//!.*\n)+", "", file.read_text()) if file.name == "main.rt" else file.read_text()
            page += [f"## src/{file.name}", "", "```rust", code.strip("\n"), "```", ""]
        pages[f"examples/{folder.name}.md"] = "\n".join(page)
        first = re.split(r"(?<=[.:]) |\n\n", doc.replace("\n", " ").replace("  ", "\n\n"))[0]
        listed.append(f"- [{folder.name}]({folder.name}.md): {first}")
    head = ["# Example programs", "", "Each is a crate of this repository, and `./test` runs it.", ""]
    return {"examples/index.md": "\n".join([*head, *listed]), **pages}


def license_page():
    """A page with both licences, of which a user chooses one."""
    texts = [(it, (root / it).read_text()) for it in ("LICENSE-MIT", "LICENSE-APACHE")]
    parts = [f"## {name}\n\n```text\n{text.strip()}\n```\n" for name, text in texts]
    return "# License\n\nUse elsa under the MIT license or under the Apache license 2.0.\n\n" + "\n".join(parts)


def all_pages():
    """The text of each page of the site, by its path there."""
    sources = [*FURTHER, "bench/RESULTS.md", "bench/TABLES.md", "bench/INSTRUCTIONS.md"]
    sources += [str(it.relative_to(root)) for it in sorted((root / "docs").rglob("*.md"))]
    texts = {it: (root / it).read_text() for it in sources}
    cited = set(re.findall(r"\]\((?:\.\./)*(crates/\w+/(?:specs|src)/[^)#]*)[)#]", "\n".join(texts.values())))
    made = {site_path(it): page_of(it, text) for it, text in texts.items()}
    made["bench/TABLES.md"] = WIDE + made["bench/TABLES.md"]
    for it in sorted(cited):
        page = site_path(it)
        if page and page.startswith(("definitions/", "sources/")):
            made[page] = definition_page(it) if it.endswith(".antt") else source_page(it)
    return {**made, **example_pages(), "license.md": license_page()}


def pictures():
    """The pictures of the pages, by their files: their places on the site."""
    found = [*(root / "bench").glob("*.svg"), *(root / "docs").rglob("*.svg")]
    return {it: site_path(str(it.relative_to(root))) for it in found}


def labelled(text):
    """A page of HTML whose tables have the head of its column at each cell, and whose texts that are no code, such as
    messages, have a class. On a phone the cells of a row are one below the other, and a message is broken."""

    def table(found):
        heads = [re.sub(r"<[^>]+>", "", it) for it in re.findall(r"<th\b[^>]*>(.*?)</th>", found[0], re.S)]
        rows = []
        for row in re.split(r"(?=<tr>)", found[0]):
            cells = iter(heads)
            rows.append(re.sub(r"<td", lambda _: f'<td data-head="{html.escape(html.unescape(next(cells)))}"', row))
        return "".join(rows)

    text = re.sub(r"<pre>(<span></span><code>[^<]*</code>)", r'<pre class="plain">\1', text)
    return re.sub(r"<table>.*?</table>", table, text, flags=re.S)


def guide_pages():
    """The guide's pages with their names, in the order of its table."""
    table = re.findall(r"^\| \[([^\]]+)\]\(((?:\.\./)?[\w-]+\.md)\) \|", (root / "docs/guide/README.md").read_text(), re.M)
    places = ((name, f"guide/{page}".replace("guide/../", "")) for name, page in table)
    return [{"Overview": "guide/README.md"}, *({name: place} for name, place in places)]


def reference_pages():
    """The reference's pages, grouped by the modules of its index."""
    text, groups, seldom = (root / "docs/reference/README.md").read_text(), [], []
    heading, types = r"^(###?) .*: `([\w:]+)`\n\n", r"((?:(?:- |  ).*\n)+)"
    for level, module, part in re.findall(heading + types, text, re.M):
        pages = {}
        for label, page in re.findall(r"^- \[([^\]]+)\]\(([\w-]+\.md)[^)]*\)", part, re.M):
            name = "functions" if page.endswith("-functions.md") else label.removeprefix(module.removeprefix("elsa::"))
            pages.setdefault(f"reference/{page}", name.removeprefix("::"))
        group = {module.removeprefix("elsa::"): [{name: page} for page, name in pages.items()]}
        (groups if level == "##" else seldom).append(group)
    faults = {"Faults": "reference/faults.md"}
    return [{"Index": "reference/README.md"}, *groups, {"Seldom named": seldom}, faults]


def navigation(pages):
    """The pages in the order of the site's menus."""
    below = {it: sorted(page for page in pages if page.startswith(it + "/")) for it in ("internals", "definitions")}
    examples = [it for it in pages if it.startswith("examples/")]
    maintainers = [*below["internals"], {"Decisions": "DECISIONS.md"}, {"Contributing": "contributing.md"}]
    maintainers += [{"Definitions": below["definitions"]}]
    return [
        {"Home": [{"elsa": "index.md"}, {"Licence": "license.md"}]},
        {"Guide": guide_pages()},
        {"Reference": reference_pages()},
        {"Examples": [{"All": it} if it.endswith("/index.md") else it for it in examples]},
        {
            "Measurements": [
                {"For users": "bench/RESULTS.md"},
                {"Tables": "bench/TABLES.md"},
                {"Instructions": "bench/INSTRUCTIONS.md"},
            ]
        },
        {"Changes": ["changes.md"]},
        {"For maintainers": maintainers},
    ]


def names_of(menus):
    """The names of the menus and of the pages in them that have one, except for those of the reference and of the
    definitions, whose menus name modules."""
    for menu in menus:
        for name, below in menu.items() if isinstance(menu, dict) else ():
            yield name
            if name not in ("Reference", "Definitions") and isinstance(below, list):
                yield from names_of(below)


def scheme(name, prefers, icon, other):
    """A scheme of colours, with the button that leads to the other one."""
    toggle = {"icon": f"material/{icon}", "name": f"Use the {other} scheme"}
    return {"media": f"(prefers-color-scheme: {prefers})", "scheme": name, "toggle": toggle}


def settings(site, hook):
    """The settings of mkdocs."""
    made = {
        "site_name": "elsa, proved",
        "docs_dir": "docs",
        "site_dir": str(site),
        "use_directory_urls": False,
        "theme": {
            "name": "material",
            "font": False,
            "features": ["navigation.tabs", "navigation.top"],
            "palette": [
                scheme("default", "light", "weather-night", "dark"),
                scheme("slate", "dark", "weather-sunny", "light"),
            ],
        },
        "extra_css": ["site.css"],
        "hooks": [str(hook)],
        "markdown_extensions": [
            "tables",
            "fenced_code",
            {"toc": {"toc_depth": 3}},
            "admonition",
            "attr_list",
            "md_in_html",
            {"codehilite": {"guess_lang": False, "css_class": "highlight"}},
        ],
        "plugins": [{"search": {"separator": SEPARATOR}}],
        "nav": navigation(all_pages()),
    }
    return json.dumps(made)


# Words of the search are divided as words of code are: at signs, but not at `_`.
SEPARATOR = r"[\s\-.,:;!?()\[\]{}<>\"'`&*=|/]+"
# Words that readers search for, and the page that has the answer.
SEARCHED = {
    "clear": "guide/index.html",
    "retain": "guide/index.html",
    "OOM": "guide/index.html",
    "collision": "guide/index.html",
    "no_std": "guide/index.html",
    "windows": "guide/index.html",
    "size_of": "guide/memory.html",
    "MSRV": "guide/index.html",
    "into_inner": "guide/index.html",
    "shrink": "guide/index.html",
    "semver": "guide/index.html",
    "stability": "guide/index.html",
    "maintained": "guide/index.html",
    "async": "guide/index.html",
    "wheel": "guide/bindings.html",
}
