"""The definitions of the crates' specs, as their text shows it: what each is called, what is said of it, and what it uses."""

import re
from dataclasses import dataclass

DEFINITION = re.compile(r"^ *(?:abbrev pub|abbrev|unfoldable pub|unfoldable|pub record|record|pub data|data|pub) (\S+)(?= :| \(| \{)")
DATA = re.compile(r"^ *(?:pub )?data ")
IMPORT = re.compile(r"^(pub )?use Rattle\.([\w.]+?)(?:\.\{([^}]*)\}| as (\S+))?$")
WORD = re.compile(r"[^\s(){}\[\];,λ]+")


def indent_of(line):
    return len(line) - len(line.lstrip())


def is_comment(line):
    return line.lstrip().startswith("--")


def text_of(comment):
    return " ".join(it.strip().lstrip("-").strip() for it in comment)


@dataclass(frozen=True)
class Type:
    """A type of the code, of which definitions speak: its crate, its modules there, and its name."""

    crate: str
    modules: tuple
    name: str


@dataclass(eq=False)
class Definition:
    """A definition: its file, its name, the lines of the comment that stands at it, its own lines, and its constructors."""

    file: object
    name: str
    said: list
    lines: list

    def __post_init__(self):
        cases = self.lines[1:] if DATA.match(self.lines[0]) else []
        self.constructors = [it.split()[0] for it in cases if " : " in it]

    @property
    def comment(self):
        return text_of(self.said)


class File:
    """A file of a crate's specs, with its definitions in order and what its imports name."""

    def __init__(self, crate, path, text):
        self.crate, self.path, self.lines = crate, path, text.rstrip("\n").split("\n")
        self.names, self.modules, self.handed_on, self.definitions = {}, {}, {}, []
        for found in filter(None, map(IMPORT.match, self.lines)):
            self.note_import(found[2].split("."), found[3], found[4], found[1])
        self.note_definitions()

    @property
    def comment(self):
        """What stands at the head of the file, above its first import."""
        head = [it for it in self.lines if not is_comment(it)][:1]
        count = self.lines.index(head[0]) if head else 0
        return text_of(self.lines[:count]) if head and head[0].startswith(("use ", "pub use ")) else ""

    def note_import(self, path, names, alias, is_handed_on):
        if names is None:
            self.modules[alias or path[-1]] = path
        named = {it: (path, it) for it in re.findall(r"[^\s,]+", names or "")}
        self.names.update(named)
        if is_handed_on:
            self.handed_on.update(named if names else {alias or path[-1]: (path, None)})

    def note_definitions(self):
        comment, last = [], None
        for line in [*self.lines, ""]:
            found = DEFINITION.match(line)
            if last and line.strip() and self.goes_on(last, line):
                last.append(line)
                continue
            if last:
                self.definitions.append(Definition(self, DEFINITION.match(last[0])[1], comment, last))
                comment, last = [], None
            if is_comment(line):
                comment.append(line)
            elif found:
                last = [line]
            else:
                comment = []

    @staticmethod
    def goes_on(lines, line):
        """Whether this line goes on with a definition that begins with these."""
        depth, own = indent_of(line), indent_of(lines[0])
        name = DEFINITION.match(lines[0])[1]
        return depth > own or depth == own and (line.split()[0] == name or line.strip()[0] in ")}]")


class Sources:
    """The specs of these crates, and where the names in them lead."""

    def __init__(self, top, crates):
        self.files = {}
        for crate in crates:
            folder = top / "crates" / crate / "specs"
            for path in sorted(folder.rglob("*.antt")):
                key = (crate, "specs", *path.relative_to(folder).with_suffix("").parts)
                self.files[key] = File(crate, path.relative_to(top), path.read_text(encoding="utf-8"))

    def file(self, path):
        """The file that a path names, or that of another crate which a Lib.antt hands on by that name."""
        handing = self.files.get((*path[:2], "Lib"))
        if tuple(path) in self.files or not handing or path[2] not in handing.handed_on:
            return self.files.get(tuple(path))
        onward, name = handing.handed_on[path[2]]
        return self.file([*onward, *([name] if name else []), *path[3:]])

    def lead(self, path, name):
        """What a name of a path's module is: a definition, a type of the code, or None of the project's."""
        if path[1:3] == ["specs", "declared"]:
            modules = path[3:-1] if path[-1] == "TheVariants" else path[3:]
            return Type(path[0], tuple(modules[:-1]), modules[-1])
        file = self.file(path)
        return file and self.at_file(file, name)

    def at_file(self, file, name):
        """What a file means by a name, as its own or as one that it hands on."""
        own = next((it for it in file.definitions if name == it.name or name in it.constructors), None)
        return self.lead(*file.handed_on[name]) if not own and file.handed_on.get(name, (None, None))[1] else own

    def meant(self, file, word):
        """What a word in a file's definitions means."""
        head, _, tail = word.partition(".")
        own = self.at_file(file, head)
        if not own and head in file.names:
            own = self.lead(*file.names[head])
        if not own and tail and head in file.modules:
            own = self.lead(file.modules[head], tail.partition(".")[0])
        return own

    def cited(self, file, text):
        """The definitions and the types that the words of a text mean in this file, in their order."""
        return list(dict.fromkeys(filter(None, (self.meant(file, it) for it in WORD.findall(text)))))

    def used_by(self, definition):
        """What a definition uses. A variable that is called as a definition counts too: so nothing is left out."""
        text = " ".join(it for it in definition.lines if not is_comment(it))
        return [it for it in self.cited(definition.file, text) if it is not definition]


def cited_by_code(sources, crate, path, lines):
    """What lines of a file of code cite by its imports."""
    imports = [it.strip().removeprefix("ghost ").removesuffix(";") for it in path.read_text(encoding="utf-8").split("\n")]
    file = File(crate, path, "\n".join(it for it in imports if it.startswith("use Rattle.")))
    return sources.cited(file, " ".join(lines))
