"""The definitions of specs/, and those that a reader of a public contract has to open, for tools/budgets.

A definition is what a file of specs/ declares at the beginning of a line. The names of a contract's
clauses lead to definitions by the `ghost use` lines of its file, and the names in these to others by
their `use` lines, over all crates of this repository. What std, the kit's crates and the code
declare is not counted, nor what a clause `exactly` names, which says how something is done.
"""
import re
from collections import defaultdict
from pathlib import Path

CRATES = Path(__file__).resolve().parent.parent / "crates"
IMPORT = re.compile(r"(?:pub )?(?:ghost )?use Rattle\.(\w+)\.specs\.([\w.-]+?)\.\{(.*)\}")
DECLARES = re.compile(r"(?:(?:unfoldable|abbrev|pub|record|data) )+([^\s:({]+)")
NAME = re.compile(r"[^\s(){}\[\],;:.λ→×⊎≡≢≤<>+\-*/^∷¬↔=?|&]+")


def imports_in(lines):
    """The names that these lines import: each with the crate, module and name that it stands for."""
    found = {}
    for line in lines:
        for crate, module, names in IMPORT.findall(line):
            for it in filter(None, map(str.strip, names.split(","))):
                name, _, other = it.partition(" as ")
                found[(other or name).strip()] = crate, module, name.strip()
    return found


def names_in(text):
    return set(NAME.findall(re.sub("--.*", "", text)))


class Definitions:
    """All definitions: a key is the crate, the module and the name."""

    def __init__(self):
        self.texts, self.imports = {}, {}
        for file in sorted(CRATES.glob("*/specs/**/*.antt")):
            crate, _, *parts = file.relative_to(CRATES).with_suffix("").parts
            self.read((crate, ".".join(parts)), file.read_text().splitlines())
        self.uses = {key: self.used_by(key) for key in self.texts}

    def read(self, home, lines):
        self.imports[home], key = imports_in(lines), None
        for line in lines:
            declared = None if line.startswith("use ") or " use " in line else DECLARES.match(line)
            if line.startswith("--") or IMPORT.match(line):
                continue
            if declared:
                key = *home, declared[1]
            if key:
                self.texts.setdefault(key, []).append(line)

    def at(self, found):
        """The definition that an import leads to, also where a module passes it on."""
        for _ in range(5):
            if found is None or found in self.texts:
                return found
            found = self.imports.get(found[:2], {}).get(found[2])
        return None

    def used_by(self, key):
        home, text = key[:2], "\n".join(self.texts[key])
        own = [(*home, it) for it in names_in(text)]
        found = {it if it in self.texts else self.at(self.imports[home].get(it[2])) for it in own}
        return found - {None, key}

    def behind(self, path, function):
        """How many definitions stand behind the contract of a function in a file of crates/."""
        source = (CRATES / path).read_text()
        local = imports_in(map(str.strip, source.splitlines()))
        found = self.reached({self.at(local.get(it)) for it in names_in(clauses_of(source, function))})
        return len(found)

    def reached(self, first):
        found, left = set(), [it for it in first if it]
        while left:
            key = left.pop()
            if key not in found:
                found.add(key)
                left += self.uses[key]
        return found

    def several(self):
        """The names, of three letters and more, that stand for several definitions."""
        homes = defaultdict(set)
        for crate, module, name in self.texts:
            homes[name].add((crate, module))
        return sorted(it for it, some in homes.items() if len(some) > 1 and len(it) > 2)


def clauses_of(source, function):
    """The clauses of a function's contract, but for `exactly`."""
    body = re.search(rf"\bfn {function}\b(?s:.*?)(?=\n\s*\{{\}}?\n|;\n|\n\s*\{{\}}?\Z)", source)
    if not body:
        raise LookupError(f"no function {function}")
    clauses = re.split(r"\n\s*(?=(?:requires|ensures)\b)", body[0])[1:]
    return "\n".join(it for it in clauses if not re.match(r"\w+\*? exactly\b", it))
