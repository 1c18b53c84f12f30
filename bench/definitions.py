#!/usr/bin/env python3
"""Prints the definitions that the contract of `places::run` rests on, file by file, with how many lines they have.

    bench/definitions.py [BRIEFLY]

It begins with the names in the contract, and goes from each definition to those that its text names, through the `use`
lines of its file; whatever else these lines bring is not followed. A type of the program stands in `src/`: of one that
has a `Model` that is followed, as contracts see no more of it, and of each other one its declaration. What the kit
defines is left out, and so are laws with their proofs. The lines of a definition are those of the comment above it too,
and blank ones are not counted. A name that an equation, or a record, binds itself is no other definition there.

The files stand in the chapters of `docs/READING.md`, in the order in which they are read there, with the minutes that
they take at 20 and at 15 lines a minute. With any argument only files and totals are printed, and no names. It fails
where a name leads to no definition, or a file stands in no chapter.
"""
import functools
import pathlib
import re
import sys
import textwrap

# Of each chapter the files, by crate and name, or whole crates.
CHAPTERS = {
    "The store and addresses": """pl_base/id pl_base/date pl_base/Date pl_base/transition pl_base/Transition
        pl_base/item pl_base/ItemKind pl_base/txt pl_base/seq pl_base/Store pl_base/NumberText pl_base/Title
        pl_base/Address pl_link/canon pl_base/Live""",
    "Frecency": """pl_base/Visits pl_base/Redirects pl_base/Tables pl_base/Sorting pl_base/Marks pl_base/Frecency
        pl_base/Totals""",
    "History": "pl_base/Visiting pl_base/Removal pl_base/Expiration pl_base/Days",
    "The tree and tags": """pl_base/Tree pl_base/Fold pl_base/Tags pl_words/TagName pl_words/tag_name pl_words/TagLists
        pl_tree/place pl_tree/new_item pl_tree/tree_change pl_tree/Changes pl_tree/Tagged pl_tree/Refused
        pl_base/Good""",
    "Queries and the address bar": """pl_place/kinds pl_place/sort pl_place/Kinds pl_place/query pl_place/QueryForm
        pl_place/key pl_place/Keys pl_place/Values pl_place/PlaceText pl_place/ReadQuery pl_place/Canonical
        pl_words/Pieces pl_base/View pl_conditions pl_query/result_row pl_query/Order pl_query/QueryAnswer
        pl_words/bar_text pl_words/Bar pl_bar/AddressBar pl_totals pl_bar/Filled""",
    "Lines, steps and replies": """pl_base/refusal pl_base/Refusal pl_step/command pl_step/Parsed pl_script/word
        pl_script/DayText pl_script/TagText pl_script/Script pl_step/reply pl_step/Refused pl_step/Commands pl_step/Step
        pl_step/Run pl_script/Reply""",
    "Import, export, backup, restore": """pl_nbread/tree pl_nbread/open_list pl_nbread/BookmarkFile pl_nbread/Tokens
        pl_nbread/References pl_nbread/Parts pl_nbread/BookmarkTree pl_nbread/WellFormed pl_graft pl_outline pl_nbwrite
        pl_backup pl_intake""",
    "The desk, stops and the form of the file": """pl_desk/failed pl_desk/Counts pl_desk/source pl_desk/Desk
        pl_desk/desk pl_desk/Shown pl_desk/Calls pl_desk/Settling pl_base/Touched pl_gate pl_sheets pl_slot/kind
        pl_slot/SlotKind pl_slot/row pl_slot/Slot pl_slot/SlotReading pl_slot/Header pl_slot/Arena pl_slot/links
        pl_slot/Links pl_text pl_rail/owner pl_rail/Rails pl_base/Rows pl_record/Records pl_record/Chains pl_record/Form
        pl_reading pl_store/Session pl_store/Keeper pl_store/Ending""",
    "The run": """pl_task/task pl_task/Task places/status places/answer_error places/Said places/Lines places/Progress
        places/Stops places/Ending pl_visiting pl_store/Bounds places/Bounded places/TakingIn places/Exporting
        places/Reporting places/Restoring pl_drill/draws pl_drill/drill pl_drill/Drill places/Drilling places/Completeness""",
}

CRATES = pathlib.Path(__file__).resolve().parent.parent / "crates"
CONTRACT = CRATES / "places/src/lib.rt", "run"
IMPORT = re.compile(r"^ *(?:ghost )?use Rattle\.(\w+)\.specs\.([\w.]+?)(?:\.\{([^}]*)\}| as (\w+));?$", re.M)
RUST_IMPORT = re.compile(r"^(?:pub )?use (\w+)(?:::\w+)*?::(?:\{([^}]*)\}|(\w+));$", re.M)
LAW = re.compile(r" *(?:pub )?\S+ : ")
HEAD = re.compile(r"( *)(?:(?:abbrev|unfoldable)(?: pub)? |pub record |pub data |pub |(?=\S+ : ))(\S+)")
TYPE = re.compile(r"^(?:pub(?:\(crate\))? )?(?:struct|enum|trait) (\w+)", re.M)
ENDED = re.compile(r"}$|\S.*;$")
NAME = r"[^\s:(){}]+"


def code(text):
    """A text without comments, attributes and what stands between quotes."""
    return re.sub(r'"[^"\n]*"|(?:^|(?<=\s))(?:--|///?|#\[).*', " ", text)


def tokens(text):
    return re.sub(r"[\[\](){},;λ]", " ", text).split()


def bound(text):
    """The names that an equation or a record binds: in front of a colon, behind a λ or a `let`, and as arguments."""
    for group in re.findall(rf"[({{]((?:{NAME} )+):|λ ([^.()]*)\.|\blet ({NAME})", text):
        yield from " ".join(group).split()
    left = re.match(r"[^=]*? =\s", text)
    if left and " : " not in left[0]:
        yield from (name for name in tokens(left[0])[1:] if name[0].islower())


def names(text):
    """The names, and behind a dot what is asked of them, of an equation or a record that it does not bind itself."""
    text = code(text)
    inside = set(bound(text))
    text = re.sub(rf"([{{;]\s*){NAME} =\s|^ *pub {NAME} :", r"\1", text, flags=re.M)
    for token in tokens(text):
        first, _, rest = token.partition(".")
        if first and first not in inside:
            yield first, rest.split(".")[0]


class Definition:
    def __init__(self, path, name, at, lines, parts):
        self.path, self.name, self.at, self.parts, self.is_law = path, name, at, parts, False
        self.lines = sum(1 for line in lines if line.strip())


@functools.cache
def source_of(crate, name):
    """The file of a crate that declares a type, if there is one."""
    found = [path for path in sorted((CRATES / crate / "src").rglob("*.rt")) if name in TYPE.findall(path.read_text())]
    assert len(found) < 2, (crate, name, found)
    return found[0] if found else None


def place_of(crate, module):
    """The file of a path, and the type if it leads to one: then all names behind it are parts of that."""
    if not (CRATES / crate).is_dir():
        return None, None
    if not module.startswith("declared."):
        return CRATES / crate / "specs" / (module.replace(".", "/") + ".antt"), None
    *folders, name = module.removesuffix(".TheVariants").split(".")[1:]
    return CRATES / crate / "src" / ("/".join(folders) + ".rt"), name


class File:
    def __init__(self, path):
        self.path, self.text = path, path.read_text()
        self.imports, self.aliases, self.definitions = {}, {}, {}
        for crate, module, brought, alias in IMPORT.findall(self.text):
            path, name = place_of(crate, module)
            if path and alias:
                self.aliases[alias] = path, name
            elif path:
                for item in brought.split(","):
                    own, _, here = item.strip().partition(" as ")
                    self.imports[here or own] = path, name or own
        if self.path.suffix == ".rt":
            self.read_types()
        else:
            self.read_definitions()

    def read_types(self):
        crate = self.path.relative_to(CRATES).parts[0]
        for home, several, one in RUST_IMPORT.findall(self.text):
            for name in (several or one).replace("\n", " ").split(","):
                home = home if (CRATES / home).is_dir() else crate
                if name.strip() and (path := source_of(home, name.strip())):
                    self.imports[name.strip()] = path, name.strip()
        lines = self.text.splitlines()
        for at, line in enumerate(lines):
            kind = TYPE.match(line) or re.match(r"impl(?:<.*>)? Model for (\w+)", line)
            if kind:
                self.add(kind[1], at, lines, next(n for n in range(at, len(lines)) if ENDED.match(lines[n])))
            if self.path == CONTRACT[0] and line.startswith(f"pub fn {CONTRACT[1]}<"):
                self.add(CONTRACT[1], at, lines, lines.index("{", at) - 1)

    def add(self, name, at, lines, last):
        first = at
        while lines[first - 1].startswith(("///", "//", "#[")):
            first -= 1
        text = re.sub(r"[<>&|:]", " ", "\n".join(lines[at:last + 1]))
        made = Definition(self.path, name, first, lines[first:last + 1], [text])
        if name in self.definitions:
            made.lines += self.definitions[name].lines
        self.definitions[name] = made

    def read_definitions(self):
        lines = self.text.splitlines()
        module, base, comment, now = "", "", None, None
        for at, line in enumerate(lines):
            if line.startswith("module"):
                module, base, comment, now = line, "  ", None, None
            elif line[:1].strip() and not line.startswith("--"):
                module, base = "", ""
            head = HEAD.match(line)
            if not line.strip():
                comment = None
            elif line.startswith(("--", base + "--", "infix")):
                comment = at if comment is None else comment
            elif head and head[1] == base:
                first, now, comment = at if comment is None else comment, at, None
                here = Definition(self.path, head[2], first, lines[first:at + 1], [module, line])
                here.is_law = LAW.match(line)
                self.definitions[head[2]] = here
            elif now is not None:
                here.lines += 1
                whole = re.match(r" *pub (record|data)", lines[now])
                if not whole and line.startswith(base) and line[len(base)] != " ":
                    here.parts.append(line)
                else:
                    here.parts[-1] += "\n" + line
                if whole and whole[1] == "data" and (made := re.match(rf"  ({NAME})", line)):
                    self.definitions.setdefault(made[1], here)
        operators = {name.strip("◌"): made for name, made in self.definitions.items() if "◌" in name}
        self.definitions.update(operators)


@functools.cache
def file_at(path):
    return File(path)


def named(made):
    """The definitions that the text of one names."""
    file = file_at(made.path)
    for part in made.parts:
        for first, rest in names(part):
            if first in file.aliases:
                path, name = file.aliases[first]
                place = path, name or rest
            else:
                place = file.imports.get(first, (made.path, first))
            found = file_at(place[0]).definitions.get(place[1])
            if found and not found.is_law:
                yield found
            elif not found and (first in file.aliases or first in file.imports):
                yield place


def all_from(start):
    """The definitions that one rests on, file by file."""
    reached, left, files = {start}, [start], {}
    while left:
        for made in named(left.pop()):
            if isinstance(made, tuple):
                sys.exit(f"definitions.py: {made[0].relative_to(CRATES)} has no {made[1]}")
            if made not in reached:
                reached.add(made)
                left.append(made)
                files.setdefault(made.path, []).append(made)
    return files


def chapter_of(path):
    """The chapter of a file, and where it stands in it."""
    crate, name = path.relative_to(CRATES).parts[0], path.stem
    for number, (title, list_of) in enumerate(CHAPTERS.items(), 1):
        for at, entry in enumerate(list_of.split()):
            if entry in (crate, f"{crate}/{name}"):
                return number, title, at, str(path)
    sys.exit(f"definitions.py: {path.relative_to(CRATES)} stands in no chapter")


def total(files, lines):
    definitions = sum(map(len, files))
    return (f"{len(files)} files, {definitions} definitions, {lines} lines, "
            f"{round(lines / 20)} to {round(lines / 15)} minutes")


def main():
    start = file_at(CONTRACT[0]).definitions[CONTRACT[1]]
    files = all_from(start)
    lines = {path: sum(made.lines for made in files[path]) for path in files}
    print(f"The contract: {start.lines} lines")
    chapters = sorted({chapter_of(path)[:2] for path in files})
    for number, title in chapters:
        there = sorted((path for path in files if chapter_of(path)[0] == number), key=chapter_of)
        print(f"\n{number}. {title}: {total([files[path] for path in there], sum(lines[path] for path in there))}")
        for path in there:
            print(f"  {path.relative_to(CRATES)}: {len(files[path])}, {lines[path]} lines")
            if len(sys.argv) < 2:
                found = sorted(files[path], key=lambda made: made.at)
                print(textwrap.fill(" ".join(made.name for made in found), 116, initial_indent="    ",
                                    subsequent_indent="    ", break_on_hyphens=False))
    print(f"\nAll: {total(list(files.values()), sum(lines.values()))}")


if __name__ == "__main__":
    main()
