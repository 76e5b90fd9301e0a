"""Changes lines of pardo in one thing at a time, for tools/exercises: a token that is another one, or is missing, one added to an operand
or taken from it, an operation without its second operand, a line that is missing, said twice, or in another place."""
import re

TOKEN = re.compile(r":=|!=|<=|>=|<<|>>|[A-Za-z_]\w*|\d+|[^\s\w]")
CLASSES = [
    ["+", "-", "*", "|", "xor", "&", "<<", ">>", "/", "%"],
    ["=", "!=", "<", "<=", ">", ">="],
    ["and", "or"],
    ["min", "max"],
    ["to", "downto"],
    ["if", "while"],
]
WORDS = set("if elsif else end for while to downto and or min max xor lg private shared const code assert".split())


def is_name(token):
    return re.match(r"[A-Za-z_]", token) and token not in WORDS


class Names:
    """The names of lines by their kind: those that have an index, and the others."""

    def __init__(self, lines):
        names = list(dict.fromkeys(it for it in TOKEN.findall(lines) if is_name(it)))
        self.arrays = [it for it in names if re.search(rf"\b{it}\[", lines)]
        self.others = [it for it in names if it not in self.arrays]

    def instead_of(self, token):
        """What may stand in the place of a token."""
        if token.isdigit():
            number = int(token)
            return [*map(str, [number + 1, max(number - 1, 0), 0, 2 * number]), *self.others]
        if token in self.arrays:
            return self.arrays
        if is_name(token):
            return [*self.others, "0", "1"]
        return next((it for it in CLASSES if token in it), [])


def with_other_tokens(lines):
    names = Names(lines)
    for found in TOKEN.finditer(lines):
        token, before, after = found[0], lines[: found.start()], lines[found.end() :]
        changed = [*names.instead_of(token), ""]
        if token.isdigit() or token in names.others:
            changed += [f"{token} + 1", f"{token} - 1"]
        yield from (before + it + after for it in changed)
    for found in re.finditer(r" (?:[-+*|&/%]|<<|>>|and|or|xor) \w+", lines):
        yield lines[: found.start()] + lines[found.end() :]


def with_other_lines(lines):
    rows = lines.split("\n")
    for k, row in enumerate(rows):
        yield "\n".join(rows[:k] + rows[k + 1 :])
        yield "\n".join(rows[:k] + [row] + rows[k:])
        if k + 1 < len(rows):
            yield "\n".join(rows[:k] + [rows[k + 1], row] + rows[k + 2 :])


def mutants_of(lines):
    """All of them, each once."""
    found = dict.fromkeys([*with_other_tokens(lines), *with_other_lines(lines)])
    found.pop(lines, None)
    return list(found)
