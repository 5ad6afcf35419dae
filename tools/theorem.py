#!/usr/bin/env python3
"""Lists the definitions that the clauses of a public function rest on: theorem.py [CRATE [FUNCTION]], theorem.py --test|--untold.

What a contract promises is what its definitions say, so this is what has to be read to believe it; the
default is the program's call, `aria` of `aria_top`. The list is made from the sources: the clauses name
definitions, these name others, and so on down to the kit's own library. Files come in the order in which
they build on each other, lowest first, each with the definitions that are used and the lines that they
take. Names of Rust types are listed apart: their declarations are what contracts see of them.

A function may be one of a type or a trait, as `Tables::get`; without the type every function of that name is listed.
With --test the list of each public function of each crate is made, and one of each kind is held against what it has to be.
With --untold the code is counted of whose bytes no clause speaks, without comments and empty lines.
"""

import pathlib
import re
import sys

CRATES = pathlib.Path(__file__).resolve().parent.parent / "crates"
NAME = re.compile(r"[^\s(){}\[\],;.λ:→×⊎≡≤<↔]+")
IMPORT = re.compile(r"\buse (?P<path>[\w.+]+)(?:\.\{(?P<names>[^}]*)\}| as (?P<alias>\w+))")
HEAD = re.compile(r"(?P<indent> *)(?:abbrev |unfoldable |known )*(?:pub )?(?P<kind>record |data )?(?P<name>[^\s:({]+) *[:({]")
CONSTRUCTOR = re.compile(r" +(?P<name>[^\s:]+) *:")
BLOCK = re.compile(r"(?:abbrev |unfoldable )?(?:mutual|module)\b")
FUNCTION = re.compile(r"^(?P<indent> *)(?P<public>pub )?(?:const )?(?:unsafe )?fn (?P<name>\w+)", re.M)
OWNER = re.compile(r"^(?P<public>pub )?(?:unsafe )?(?P<kind>impl|trait)\b(?P<rest>[^{;]*)", re.M)
BEFORE_CLAUSE = re.compile(r"\b(?:requires|ensures)(?:\s+\w+)?\s*$")
COMMENT = re.compile(r"//[^\n]*")


def balanced(text, start):
    """The text from the brace at `start` to the one that closes it."""
    depth = 0
    for at in range(start, len(text)):
        depth += {"{": 1, "}": -1}.get(text[at], 0)
        if depth == 0:
            return text[start + 1 : at]
    raise ValueError("a brace is not closed")


def imports_of(text, ghost=""):
    """What each name that a file imports stands for: its path and the name there, or the path of a whole file."""
    found = {}
    for line in re.findall(rf"^ *{ghost}use [^;\n]*(?:\{{[^}}]*\}})?", text, re.M):
        match = IMPORT.search(line)
        if not match:
            continue
        if match["alias"]:
            found[match["alias"]] = (match["path"], None)
        for name in (match["names"] or "").split(","):
            if name.strip():
                found[name.strip()] = (match["path"], name.strip())
    return found


class SpecFile:
    """A file of definitions, with the text of each."""

    def __init__(self, crate, name):
        self.crate, self.name = crate, name
        self.path = CRATES / crate / "specs" / f"{name}.antt"
        text = self.path.read_text(encoding="utf-8")
        self.imports = imports_of(text)
        self.definitions, self.owners = {}, {}
        name, inside, is_data = None, 0, False
        for line in text.splitlines():
            if not line.strip() or line.lstrip().startswith(("--", "use ", "pub mod")):
                continue
            if not line.startswith(" "):
                inside = 2 if BLOCK.match(line) else 0
            head = None if BLOCK.match(line) else HEAD.match(line)
            if head and len(head["indent"]) in {0, inside}:
                name, is_data = head["name"], head["kind"] == "data "
            elif is_data and CONSTRUCTOR.match(line):
                self.owners[CONSTRUCTOR.match(line)["name"]] = name
            if name is not None and not BLOCK.match(line):
                self.definitions.setdefault(name, []).append(line)

    def first_comment(self):
        line = self.path.read_text(encoding="utf-8").splitlines()[0]
        return line.removeprefix("--").strip()


class Reading:
    """The definitions that were met, and the order of their files."""

    def __init__(self):
        self.files, self.used, self.types, self.order = {}, {}, set(), []

    def file(self, path):
        parts = path.split(".")
        if parts[:1] != ["Rattle"] or len(parts) < 4 or parts[2] != "specs":
            return None
        if parts[3] in ("declared", "contracts"):
            name = parts[-2] if parts[-1] == "TheVariants" else parts[-1]
            self.types.update({(parts[1], name)} if name != "TheConstants" else ())
            return None
        key = (parts[1], parts[3])
        if key not in self.files:
            if not (CRATES / parts[1] / "specs" / f"{parts[3]}.antt").exists():
                return None
            self.files[key] = SpecFile(*key)
        return self.files[key]

    def follow(self, text, imports, home=None):
        """Goes through each name of a text that is imported, or defined in the same file."""
        for alias, word in dict.fromkeys(re.findall(rf"(\w+)\.({NAME.pattern})", text)):
            file = alias in imports and imports[alias][1] is None and self.file(imports[alias][0])
            if file:
                self.take(file, word)
        for word in dict.fromkeys(NAME.findall(text)):
            if home and (word in home.definitions or word in home.owners):
                self.take(home, word)
            elif word in imports:
                path, name = imports[word]
                file = self.file(path)
                if file and name:
                    self.take(file, name)

    def take(self, file, name):
        name = file.owners.get(name, name)
        used = self.used.setdefault((file.crate, file.name), set())
        if name in used or name not in file.definitions:
            return
        used.add(name)
        self.follow("\n".join(file.definitions[name]), file.imports, file)
        if file not in self.order:
            self.order.append(file)


class Function:
    """A public function: its name, with the type or trait that it belongs to, and its clauses with what their file imports."""

    def __init__(self, crate, path, owner, match, text):
        self.crate, self.path, self.name = crate, path, match["name"]
        self.title = f"{owner}::{self.name}" if owner else self.name
        self.clauses, self.imports = clauses_at(text, match.end()), imports_of(text, "ghost ")


def clauses_at(text, start):
    """The clauses between the name of a function and its body, or the semicolon where it has none."""
    found, depth, at = [], 0, start
    while True:
        sign = text[at]
        if sign == "/" and text.startswith("//", at):
            at = text.index("\n", at)
        elif sign == "{" and BEFORE_CLAUSE.search(text, start, at):
            found.append(balanced(text, at))
            at += len(found[-1]) + 1
        elif depth == 0 and sign in "{;":
            return found
        else:
            depth += {"(": 1, "[": 1, ")": -1, "]": -1}.get(sign, 0)
        at += 1


def owner_of(match):
    """The name of the type of an `impl`, or of the trait."""
    rest = match["rest"]
    if match["kind"] == "impl":
        rest = re.sub(r"^<(?:[^<>]|<[^<>]*>)*>", "", rest).split(" for ")[-1]
    return re.search(r"\w+", rest)[0]


def functions_of(crate):
    """The public functions of a crate, those of its public traits among them; not those of its tests."""
    for path in sorted((CRATES / crate / "src").rglob("*.rt")):
        text = path.read_text(encoding="utf-8")
        owners = [(match.start(), match["kind"], bool(match["public"]), owner_of(match)) for match in OWNER.finditer(text)]
        for match in FUNCTION.finditer(text):
            start, kind, is_public, owner = next((it for it in reversed(owners) if it[0] < match.start()), (0, "", False, ""))
            owner = owner if match["indent"] else ""
            if match["public"] or (owner and kind == "trait" and is_public):
                yield Function(crate, path, owner, match, text)


def find(crate, name):
    found = [it for it in functions_of(crate) if name in (it.name, it.title)]
    return found or sys.exit(f"there is no public function {name} in {crate}")


def reading_of(function):
    reading = Reading()
    for clause in function.clauses:
        reading.follow(clause, function.imports)
    return reading


def lines_in(reading, file):
    return sum(len(file.definitions[name]) for name in reading.used[file.crate, file.name])


def show(function):
    reading = reading_of(function)
    if not function.clauses:
        print(f"{function.crate}::{function.title} has no clause ({function.path.relative_to(CRATES.parent)}).")
        return
    what = "clause of {} rests" if len(function.clauses) == 1 else f"{len(function.clauses)} clauses of {{}} rest"
    print(f"The {what.format(f'{function.crate}::{function.title}')} on these definitions, lowest first:\n")
    for file in reading.order:
        print(f"{lines_in(reading, file):4} lines  crates/{file.crate}/specs/{file.name}.antt  ({file.first_comment()})")
        print(f"            {' '.join(name for name in file.definitions if name in reading.used[file.crate, file.name])}")
    print(f"\n{sum(lines_in(reading, file) for file in reading.order)} lines of {len(reading.order)} files.")
    print("Rust types that they name: " + " ".join(f"{crate}::{name}" for crate, name in sorted(reading.types)))


# A function of each kind, how many clauses it has, and a definition that it has to lead to.
KINDS = [
    ("resume_laws", "every_stop_resumes", 1, ("resume_laws", "Resumptions", "EveryStopResumes")),
    ("batch_rules", "serial_law", 1, ("batch_rules", "Laws", "SerialLaw")),
    ("output_laws", "passes_check", 1, ("output_laws", "Outputs", "PassesCheck")),
    ("aria_base", "Source::take", 4, ("aria_base", "Streams", "Takes")),
    ("dir_disk", "DirDisk::new", 1, None),
    ("dir_disk", "Folder::new", 0, None),
    ("aria_top", "aria", 22, ("aria_top", "Out", "IsToldFor")),
]


def test():
    """Makes the list of every public function, and says what is wrong."""
    faults, count, told = [], 0, 0
    for folder in sorted(CRATES.iterdir()):
        for function in functions_of(folder.name):
            count += 1
            told += bool(function.clauses)
            words = len(re.findall(r"\b(?:requires|ensures)\b", COMMENT.sub("", "\n".join(function.clauses))))
            if words:
                faults.append(f"{folder.name}::{function.title}: a clause has another one within it")
            reading_of(function)
    for crate, name, number, wanted in KINDS:
        function = find(crate, name)[0]
        used = reading_of(function).used
        if len(function.clauses) != number:
            faults.append(f"{crate}::{name}: {len(function.clauses)} clauses, wanted {number}")
        if wanted and wanted[2] not in used.get(wanted[:2], ()):
            faults.append(f"{crate}::{name}: it does not lead to {wanted[2]}")
    print("\n".join([*faults, f"{count} public functions, {told} of them with clauses, {len(faults)} faults"]))
    sys.exit(1 if faults else 0)


# Where bytes pass between the contract and the machine.
UNTOLD = ("aria_cli/src/*.rt", "aria_base/src/standard_streams.rt", "dir_disk/src/dir_disks.rt", "dir_disk/src/folders.rt")


def count_untold():
    total = 0
    for file in sorted(file for pattern in UNTOLD for file in CRATES.glob(pattern)):
        lines = sum(bool(COMMENT.sub("", line).strip()) for line in file.read_text(encoding="utf-8").splitlines())
        print(f"{lines:4} lines  crates/{file.relative_to(CRATES)}")
        total += lines
    print(f"{total} lines of code")


def main(crate="aria_top", function="aria"):
    if crate == "--test":
        test()
    if crate == "--untold":
        return count_untold()
    for number, found in enumerate(find(crate, function)):
        print(end="\n" if number else "")
        show(found)


if __name__ == "__main__":
    main(*sys.argv[1:])
