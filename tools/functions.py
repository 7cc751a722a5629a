"""Where the functions of a source file are, and which of them a mutant of crates/NAME/must-fail/ changes."""
import collections, re

# A function: its source file, the type or trait that it belongs to, its name, the pattern of the name that a check
# prints, and its first and last line, counted from 0.
Item = collections.namedtuple("Item", "file owner name path first last")


def word(text):
    """The checker's name of a type inside the name of an impl: `&str` as RefStr, `&mut Text` as RefMutText, `&[U]` as
    RefSlice, `&U` as Ref, `u64` as U64, `()` as Unit, a path by its last word."""
    text = re.sub(r"'\w+\s*", "", text).strip()
    if text == "()":
        return "Unit"
    if not text.startswith("&"):
        name = re.match(r"(?:\w+::)*(\w+)", text)[1]
        return name[0].upper() + name[1:]
    kind = "RefMut" if re.match(r"&\s*mut\b", text) else "Ref"
    target = re.sub(r"^&\s*(mut\s+)?", "", text)
    if target.startswith("["):
        return kind + "Slice"
    is_parameter = re.fullmatch(r"[A-Z]\w*", target)
    return kind if is_parameter else kind + word(target)


def parts_of_header(header):
    """The parameters of an impl, and the text of its header after them, up to `where` or the brace."""
    parameters, rest, depth = "", header[len("impl") :].lstrip(), 0
    if rest.startswith("<"):
        for at, letter in enumerate(rest):
            depth += (letter == "<") - (letter == ">" and rest[at - 1] not in "-=")
            if not depth:
                parameters, rest = rest[: at + 1], rest[at + 1 :]
                break
    return parameters, re.split(r"\bwhere\b|\{", rest)[0].strip()


def without_parameters(header):
    """The text of an impl's header after `impl` and its parameters, up to `where` or the brace."""
    return parts_of_header(header)[1]


def impl_name(header):
    """The pattern of the checker's name of an impl: the type and the trait, and a suffix if several have that name; for
    `Drop` only the type. The type of an impl for each type, as `impl<Q: Query> Seeks for Q`, is named Any."""
    parameters, plain = parts_of_header(header)
    trait, _, target = plain.rpartition(" for ")
    if trait == "Drop":
        return word(target) + r"(\+[\w+]*)?"
    if trait and re.search(rf"[<,]\s*{re.escape(target)}\s*[:,=>]", parameters):
        return "Any" + word(trait) + r"\w*(\+[\w+]*)?"
    arguments = r"\w*" if "<" in target else ""
    return word(target) + arguments + word(trait) + r"\w*(\+[\w+]*)?" if trait else word(plain) + r"(\+[\w+]*)?"


def anywhere(path):
    """The pattern of the name of a method whose type is declared in a module that does not contain the method's."""
    return r"(\w+::)*" + re.sub(r"^(\(\w+::\)\?)+", "", path)


def functions_of(path, text):
    """The functions of a source file, with the pattern of the name that a check prints, and their lines. Closures and
    inner functions belong to the outer one."""
    module = list(path.relative_to("src").with_suffix("").parts)
    module = [] if module in (["lib"], ["main"]) else module
    lines, found, block, owner, header = text.split("\n"), [], "", "", ""
    for at, line in enumerate(lines):
        start = re.match(r"(?:unsafe )?(impl\b.*)|(?:pub(?:\([\w:]+\))? )?(trait) (\w+)", line)
        if start:
            header, end = line, at
            while "{" not in lines[end] and not lines[end].rstrip().endswith("where"):
                end += 1
                header += " " + lines[end].strip()
            block = start[3] if start[2] else impl_name(re.sub(r"^unsafe ", "", header))
            owner = (
                start[3]
                if start[2]
                else word(without_parameters(re.sub(r"^unsafe ", "", header)).rpartition(" for ")[2])
            )
        elif line == "}":
            block = ""
        head = re.match(r"( {4})?(?:pub(?:\([\w: ]+\))? )?(?:const |unsafe )*fn (\w+)", line)
        if head:
            indent = head[1] or ""
            ends = (
                it
                for it in range(at + 1, len(lines))
                if lines[it] == indent + "}" or re.match(indent + r"\S.*\bfn \w|" + indent + r"fn \w", lines[it])
            )
            last = at if line.endswith("}") else next(ends, at)
            if lines[last] != indent + "}":
                last = at
            # a method's name has the module that declares its type, which may contain this file's module
            at_module = "".join(f"({it}::)?" if indent else f"{it}::" for it in module)
            path_of_it = at_module + (f"{block}::" if indent else "") + head[2]
            found.append(Item(str(path), owner if indent else "", head[2], path_of_it, at, last))
    return found


def pairs_of(file):
    """The pairs of texts in a file of must-fail/, each with the path of its source file."""
    path, old = None, None
    for line in file.read_text().split("\n"):
        key, _, text = line.partition(": ")
        if key == "file":
            path = text.strip()
        elif key == "old":
            old = text
        elif key in ("new", "new:"):
            yield path, old, text
