"""Reads proof files (.antt) and code (.rt) by the layout that `rt fmt` keeps: what each declares, imports and cites."""
import pathlib
import re
import sys

sys.dont_write_bytecode = True
ROOT = pathlib.Path(__file__).resolve().parent.parent
CRATES = ROOT / "crates"


def sources(kind):
    """The files of a kind in the crates, but for what a check leaves in out/."""
    return sorted(path for path in CRATES.rglob("*." + kind) if path.relative_to(CRATES).parts[1] != "out")


NAME = r'[^\s(){}.;,@"«»]+'
HEAD = re.compile(rf"(?:(abbrev|unfoldable) )?(pub )?(?:(record|data) ({NAME})|({NAME}) :(?= |$))")
MODULE = re.compile(r"(?:pub )?(?:module|mutual)\b")
USE = re.compile(rf"(?:pub |ghost )?use ([^\s{{;]+?)(?:\.\{{(.*)\}}| as ({NAME}))?;?$")
LABEL = re.compile(rf"(^|[{{;])\s*{NAME}(?= = )")
WORD = re.compile(rf"(?<![^\s(){{}};,@])({NAME})((?:\.{NAME})*)")


def cited(text):
    """The words of a line but for labels (`name = `) and fields (`.name`), each with the one after its dot."""
    return [(word, rest[1:].split(".")[0]) for word, rest in WORD.findall(LABEL.sub(r"\1", text))]


def parts(name):
    """The words by which a name is cited: itself, and those of an operator."""
    return [name] + [part for part in name.split("◌") if part and part != name]


def of_function(path):
    """Whether a file is of the proof of one function, and so in the folder of its name."""
    return path.name in ("Invariants.antt", "Answers.antt", "Proof.antt") and "proofs" in path.parts and path.parent.name != "Laws"


class Declaration:
    """A law, a definition or a type; the members of a type are its fields or cases."""

    def __init__(self, line, head, words):
        form, public, kind, type_name, name = head.groups()
        self.line, self.name, self.public = line, type_name or name, bool(public)
        self.kind = kind or ("definition" if form else "law")
        self.members, self.words = [], list(words)


class File:
    """Its words, and of a proof file its declarations with theirs. It has laws, or else proves or is code."""

    def __init__(self, path):
        self.path, self.words, self.declarations = path, [], []
        self.laws = path.suffix == ".antt" and not of_function(path)
        self.names, self.modules = {}, {}  # what is imported: word -> (module, name), word -> module
        comment = r"(^|\s)//.*" if path.suffix == ".rt" else r"(^|\s)--(\s.*)?$"
        modules, inside, level = [], None, 0  # open modules, each with its level and words; the open declaration
        for number, line in enumerate(path.read_text().splitlines(), 1):
            line = re.sub(comment, "", re.sub(r'"(\\.|[^"\\])*"', "", line)).rstrip()
            text = line.strip()
            if not text or self.imports(text):
                continue
            words, indent, head = cited(text), len(line) - len(text), HEAD.match(text)
            self.words += words
            if path.suffix == ".rt":
                continue
            if indent < level or indent == level and (head or MODULE.match(text)):
                inside = None
                modules = [module for module in modules if module[0] < indent]
            if inside:
                inside.words += words
                if head and inside.kind in ("record", "data"):
                    inside.members.append(head[5])
            elif head:
                inside, level = Declaration(number, head, [word for _, some in modules for word in some] + words), indent
                self.declarations.append(inside)
            elif MODULE.match(text):
                modules.append((indent, words))
                level = indent + 1
            elif modules:  # the parameters of a module go on
                modules[-1][1].extend(words)

    def imports(self, text):
        use = USE.match(text)
        if use:
            module, names, alias = use.groups()
            for each in re.split(r", *", names or ""):
                name, _, other = each.partition(" as ")
                for word in parts(other or name):
                    self.names[word] = (module, name)
            self.modules[alias or module] = module
        return use


def promises():
    """The names in docs/PROOFS.md, each with the file that its row names, or None."""
    for line in (ROOT / "docs/PROOFS.md").read_text().splitlines():
        row = re.fullmatch(r"\|.*\|(.*)\| `(\S+\.antt)` \|", line)
        for name in re.findall(r"`([^`]+)`", row[1] if row else line):
            yield name, CRATES / row[2] if row else None
