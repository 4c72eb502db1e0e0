"""What the crates declare, and what each declaration names: definitions and laws (antt), types and functions (Rattle).

The files are read as text in the layout that `rt fmt` gives them. A name is resolved by the file's `use` lines; a variable that a
clause binds hides a name. `reached` follows definitions, `called` follows calls.
"""

import re
from pathlib import Path

ROOT = Path(__file__).resolve().parent.parent
CRATES = ROOT / "crates"

NAME = re.compile(r"[^\s(){},;\"]+")
BINDER = re.compile(r"[({]([^(){}:]+?) : ")
LAMBDA = re.compile(r"λ ([^.()]+?)\.")
LET = re.compile(r"\blet (\S+) [:=]")
MADE_FIELD = re.compile(r"([{;]\s*)([^\s{};=]+) =(?=\s)")
OWN_FIELD = re.compile(r"^(\s+)(?:pub )?(\S+) : ", re.M)
USE = re.compile(r"^(?:ghost |pub )?use ([^\s{;]+?)(?: as ([^\s;]+)|\.\{([^}]*)\})?;?$", re.M | re.S)
MODULE = re.compile(r"Rattle\.(\w+)\.(specs|proofs)\.(.+)$")
ANTT_START = re.compile(r"(?:abbrev |unfoldable |pub )*(?:(record|data|ruleset) )?(\S+?)(?: :| \(| \{|:| =)")
RATTLE_TYPE = re.compile(r"(?:pub )?(struct|enum) (\w+)")
RATTLE_FUNCTION = re.compile(r"( *)(?:pub )?(extern \"C\" )?fn (\w+)")
CALL = re.compile(r"(?:(\w+)::)?(\.)?(\w+)(?:::<\w+>)?\(")


def parts(name):
    """The words by which a name is used: `◌⟨cie≔◌⟩` by `⟨cie≔`."""
    return [p for p in name.split("◌") if p not in ("", "⟩")]


def imports(text):
    """The names that a file brings in, and its short names of modules. A module is (crate, specs or proofs, its name)."""
    names, modules = {}, {}
    for path, short, listed in USE.findall(text):
        found = MODULE.match(path)
        if not found:
            continue
        module = (found[1], found[2], found[3])
        if short:
            modules[short] = module
        for item in filter(None, (i.strip() for i in listed.replace("\n", " ").split(","))):
            name, _, renamed = item.partition(" as ")
            for word in parts(renamed or name):
                names[word] = (module, name)
    return names, modules


class Declaration:
    """A definition, law or type: its comment, its lines, the section that it stands in, and its constructors or fields."""

    def __init__(self, file, name, kind, section):
        self.file, self.name, self.kind, self.section = file, name, kind, section
        self.comment, self.lines, self.inner = [], [], []

    @property
    def key(self):
        return (self.file.module, self.name)

    def clauses(self):
        """The declared type, then each clause; of a record or a data type all at once, without the names of its fields."""
        text = "\n".join(line for line in self.lines if not line.lstrip().startswith("--"))
        if self.kind in ("record", "data", "struct", "enum"):
            return [OWN_FIELD.sub(r"\1 ", text)]
        indent = re.match(" *", text).group()
        return re.split(rf"\n(?={indent}(?:{re.escape(self.name)}|unfolding) )", text)

    def bound(self, clause):
        """The variables of a clause."""
        names = set(LET.findall(clause))
        for group in BINDER.findall(clause) + LAMBDA.findall(clause):
            names.update(group.split())
        left = clause.split(" = ")[0].split(" =\n")[0].split()
        if left and left[0] == self.name and left[1:2] != [":"]:
            names.update(w.strip("(){}") for w in left[1:] if w.strip("(){}")[:1].islower() and w.strip("(){}") not in self.file.constructors)
        return names

    def named(self, statement=False):
        """The keys of what the declaration names; of a theorem's statement what its type names."""
        keys = set()
        for clause in (self.clauses()[:1] if statement else self.clauses()) + ([self.section] if self.section else []):
            hidden = self.bound(clause) | (self.bound(self.section) if self.section else set())
            fields = re.sub(r"^(\s+)[^\s=]+ =(?=\s)", r"\1", clause, flags=re.M) if "record {" in clause else clause
            for word in NAME.findall(MADE_FIELD.sub(r"\1", fields)):
                if word.split(".")[0] not in hidden:
                    keys.update(self.file.resolve(word))
        keys.discard(self.key)
        return keys


class Function:
    """A function of Rattle: its contract, and the functions that its body may call."""

    def __init__(self, file, name, owner, exported, text):
        self.file, self.name, self.owner, self.exported = file, name, owner, exported
        head, body = (text.split("\n{\n", 1) if "\n{\n" in text else re.split(r"\{\n", text, maxsplit=1)) if "{\n" in text else (text, "")
        contract = re.search(r"\b(?:requires|ensures)\b.*", head, re.S)
        self.contract = contract.group() if contract else ""
        self.body = body

    @property
    def key(self):
        return (self.file.module[0], self.name)

    def named(self):
        """The keys of what the contract names."""
        return {key for word in NAME.findall(self.contract) for key in self.file.resolve(word)}


class File:
    """A file of specs/, proofs/ or src/."""

    def __init__(self, path, module):
        self.path, self.module = path, module
        text = path.read_text()
        self.names, self.modules = imports(text)
        self.declarations, self.functions, self.constructors, self.own = [], [], set(), {}
        self.read_antt(USE.sub("", text).splitlines()) if path.suffix == ".antt" else self.read_rattle(text.splitlines())
        for d in self.declarations:
            for word in d.inner:
                self.own.setdefault(word, d.key)
        for d in self.declarations:
            for word in parts(d.name):
                self.own[word] = d.key

    def resolve(self, word):
        """The keys that a word may stand for; a word that starts with a dot is a field."""
        if word.startswith("."):
            return
        first, _, rest = word.partition(".")
        if word in self.own:
            yield self.own[word]
        elif word in self.names:
            yield self.names[word]
        elif first in self.modules:
            yield (self.modules[first], rest.split(".")[0])
        elif rest and (first in self.own or first in self.names):
            yield self.own.get(first) or self.names[first]

    def read_antt(self, lines):
        comment, section, current = [], None, None
        for line in lines:
            inside = section is not None and (line.startswith("  ") or not line)
            body = line[2:] if inside else line
            if not line.strip():
                comment, current = [], None
            elif line.startswith("infix"):
                comment = []
            elif body.startswith("--"):
                comment.append(line)
            elif line.startswith("module _") or (section and not section.endswith(" where")):
                section = line if line.startswith("module _") else section + "\n" + line
                comment, current = [], None
            else:
                section = section if inside else None
                start = None if body.startswith((" ", "unfolding")) else ANTT_START.match(body)
                if start and (start[1] or re.match(r"(?:abbrev |unfoldable |pub )*\S+ :( |$)", body)):
                    current = Declaration(self, start[2], start[1] or "name", section)
                    current.comment, comment = comment, []
                    self.declarations.append(current)
                current = current or self.declarations[-1]
                current.lines += comment + [line]
                comment = []
                inner = re.match(r"  (?:pub )?([^:]+) :", body)
                if current.kind in ("record", "data") and inner:
                    current.inner += inner[1].split()
                    if current.kind == "data":
                        self.constructors.update(inner[1].split())

    def read_rattle(self, lines):
        comment, owner, at = [], None, 0
        while at < len(lines):
            line = lines[at]
            made, function = RATTLE_TYPE.match(line), RATTLE_FUNCTION.match(line)
            owner = m[1] if (m := re.match(r"impl (\w+)", line)) else None if line == "}" else owner
            if made or function:
                indent = function[1] if function else ""
                taken = [line]
                while not (taken[-1] == indent + "}" or (made and taken[-1].endswith((";", "}")))):
                    at += 1
                    taken.append(lines[at])
                if function:
                    self.functions.append(Function(self, function[3], owner, bool(function[2]), "\n".join(t[len(indent) :] for t in taken)))
                else:
                    d = Declaration(self, made[2], made[1], None)
                    d.comment, d.lines = comment, taken
                    self.declarations.append(d)
            comment = comment + [line] if line.startswith("//") else comment if line.startswith("#[") else []
            at += 1


class Crates:
    """Every crate's files, and what reaches what."""

    def __init__(self):
        self.files = []
        for crate in sorted(p for p in CRATES.iterdir() if p.is_dir()):
            for folder in ("specs", "proofs"):
                for path in sorted((crate / folder).glob("*.antt")):
                    if path.stem != "Lib":
                        self.files.append(File(path, (crate.name, folder, path.stem)))
            for path in sorted((crate / "src").glob("*.rt")):
                self.files.append(File(path, (crate.name, "src", path.stem)))
        self.declared = {d.key: d for f in self.files for d in f.declarations}
        self.functions = {}
        for f in self.files:
            for function in f.functions:
                self.functions.setdefault(function.key, []).append(function)
        self.module = {f.module: f for f in self.files}
        self.type = {(f.module[0], d.name): d for f in self.files if f.module[1] == "src" for d in f.declarations}

    def find(self, key):
        """The declaration of a key: a definition, a constructor's or field's type, a type of Rattle; None for one that Rattle makes."""
        module, name = key
        if key in self.declared:
            return self.declared[key]
        made = re.match(r"declared\.(?:\w+\.)*?(\w+?)(?:\.TheVariants)?$", module[2])
        if made:
            return self.type.get((module[0], made[1]))
        file = self.module.get(module)
        return self.declared[file.own[name]] if file and name in file.own else None

    def theorem(self, name):
        """A theorem, by its crate, its file and its name."""
        crate, module, theorem = name.split()
        return self.declared[((crate, "proofs", module), theorem)]

    def reached(self, keys):
        """Every declaration that the keys reach."""
        seen, todo = {}, [self.find(k) for k in keys]
        while todo:
            d = todo.pop()
            if d is None or d.key in seen:
                continue
            seen[d.key] = d
            todo += [self.find(k) for k in d.named()]
            if d.kind in ("struct", "enum"):
                crates = [d.file.module[0]] + re.findall(r"^use (\w+)::", d.file.path.read_text(), re.M)
                todo += [self.type.get((c, w)) for w in re.findall(r"\w+", "\n".join(d.lines)) for c in crates]
        return seen

    def called(self, functions):
        """Every function that these may call: a method by its name alone, one of the crate's own module by its name."""
        stems = {(f.module[0], f.path.stem) for f in self.files if f.module[1] == "src"}
        seen, todo = set(), list(functions)
        while todo:
            f = todo.pop()
            if f in seen:
                continue
            seen.add(f)
            for crate, dot, name in CALL.findall(f.body):
                for (home, called), found in self.functions.items():
                    if called == name and (home == crate or not crate and (dot or home == f.file.module[0]) or crate[:1].isupper() or crate in ("Self", "u8") or (f.file.module[0], crate) in stems):
                        todo += found
        return seen
