"""Whether the documents name what is there.

In README.md, docs/ and the pages of examples/, second/ and bench/, every path in backquotes that begins with a folder of this repository exists, and every
`file`: `name`, `name` names declarations of that file. Every wrong program and every wrong definition stands in docs/PROMISES.md, and every one named
there exists; each says after 'promise:' for which promises it stands, and they are those of the rows that name it. README.md shows host/example.c as it
is. Of the definitions, those that nobody has to believe are called Inside and say so in one and the same sentence, and no others do. Prints what is wrong
and ends with status 1; ends with 0 where nothing is."""
import glob
import os
import re
import sys

FOLDERS = ("crates/", "docs/", "bin/", "host/", "include/", "second/", "tests/", "examples/", "bench/", ".ci/")
NAMED = re.compile(r"`([^`\s]+\.(?:antt|rt|h))`: ((?:`[^`]+`(?:, | and )?)+)")


def declared(text, name):
    """Whether a line of a file begins with NAME, indented or not, after words such as pub, abbrev, fn or const."""
    words = r"(?:pub |abbrev |unfoldable |opaque |ghost |type |trait |extern \"C\" |record |data |struct |enum |const |fn |uint32_t )*"
    return re.search(rf"(?m)^\s*{words}{re.escape(name)}(?![\w-])", text) is not None


def there(path):
    """The files that a path means: from the root, or from crates/; NAME stands for any crate."""
    path = path.replace("NAME", "*")
    return glob.glob(path, recursive=True) or glob.glob(os.path.join("crates", path), recursive=True)


def wrong_in(document):
    text = open(document, encoding="utf-8").read()
    for path in re.findall(r"`([^`\s]+)`", text):
        if path.startswith(FOLDERS) and not there(path) and path not in edits():
            yield f"{document}: there is no {path}"
    for path, names in NAMED.findall(text):
        if not there(path):
            yield f"{document}: there is no {path}"
            continue
        source = open(there(path)[0], encoding="utf-8").read()
        for name in re.findall(r"`([^`]+)`", names):
            if not declared(source, name):
                yield f"{document}: {path} declares no {name}"


def edits():
    """The wrong programs, as crate/name, and the wrong definitions, as wrong-definitions/name: each with its file."""
    found = glob.glob("crates/*/must-fail/*.edit") + glob.glob("tests/wrong-programs/*/*.edit") + glob.glob("tests/wrong-definitions/*.edit")
    folders = {path: os.path.dirname(path.replace("/must-fail", "")) for path in found}
    return {os.path.join(os.path.basename(folder), os.path.basename(path)[:-5]): path for path, folder in folders.items()}


def named_edits(text):
    crates = "|".join(sorted(os.listdir("crates")) + ["wrong-definitions"])
    return [n for n in re.findall(rf"`((?:{crates})/[a-z0-9_]+)`", text) if not os.path.exists(n)]


def rows(text):
    """The rows of the tables that rule something out: the promise, and what is ruled out. A promise goes by the first name that its row has as file: name
    in the column 'Proves it'; a row without one gives none."""
    heads = None
    for line in text.split("\n"):
        cells = [cell.strip() for cell in line.split("|")[1:-1]]
        if not line.startswith("|"):
            heads = None
        elif heads is None:
            heads = {cell.split(",")[0]: at for at, cell in enumerate(cells)}
        elif {"Proves it", "Ruled out"} <= set(heads):
            proved = NAMED.search(cells[heads["Proves it"]])
            yield proved and re.match(r"`([^`]+)`", proved[2])[1], cells[heads["Ruled out"]]


def wrong_edits():
    text, there_are, promises = open("docs/PROMISES.md", encoding="utf-8").read(), edits(), {}
    for edit in sorted(set(there_are) - set(named_edits(text))):
        yield f"docs/PROMISES.md: {edit} is not named"
    for edit in sorted(set(named_edits(text)) - set(there_are)):
        yield f"docs/PROMISES.md: there is no edit {edit}"
    for promise, ruled_out in rows(text):
        for edit in named_edits(ruled_out):
            promises.setdefault(edit, set()).update([promise] if promise else [])
    for edit, path in sorted(there_are.items()):
        said = re.search(r"(?m)^promise: (.*)$", open(path, encoding="utf-8").read())
        if set(said[1].split() if said else []) != promises.get(edit, set()):
            yield f"{path}: the rows of docs/PROMISES.md that name it have the promises: {' '.join(sorted(promises.get(edit, set()))) or 'none'}"


def wrong_example():
    example = open("host/example.c", encoding="utf-8").read()
    if f"```c\n{example}```" not in open("README.md", encoding="utf-8").read():
        yield "README.md: the example in C is not host/example.c"


INSIDE = "-- Inside: what functions promise each other on the way to a result. Nobody has to believe this file: the result is said without it.\n"


def wrong_inside():
    """What a result is said in must not rest on what nobody has to believe: only a file called Inside names one."""
    for path in sorted(glob.glob("crates/*/specs/**/*.antt", recursive=True)):
        text, inside = open(path, encoding="utf-8").read(), re.search(r"/specs/Inside(?:/|\.antt$)", path) is not None
        if inside != text.startswith(INSIDE):
            yield f"{path}: a file of definitions is called Inside where it begins '{INSIDE.strip()}', and nowhere else"
        if not inside and re.search(r"specs\.Inside\b|(?i:nobody has to believe)", text):
            yield f"{path}: a definition that is to be believed rests on Inside, or says that it is not to be"


documents = ["README.md", *sorted(glob.glob("docs/**/*.md", recursive=True)), "examples/README.md", "second/README.md", "bench/README.md"]
wrong = [line for document in documents for line in wrong_in(document)] + list(wrong_edits()) + list(wrong_example()) + list(wrong_inside())
print("\n".join(wrong) or f"{len(documents)} documents name what is there")
sys.exit(1 if wrong else 0)
