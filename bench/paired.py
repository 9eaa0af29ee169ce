"""Which declaration of an earlier tree is which of the present one, for bench/moved.

Texts are compared word by word. What has the same text in another file has moved; what has it but for its own name, in the same file, was renamed. What
stands in the files with the proof of a function is about that one, and follows it. A text is the same only where its names stand for the same: for a
declaration that has the same place, or that moved or was renamed, and for what comes from elsewhere the module and the name there.
"""
import collections
import dataclasses
import re

from calls import Code, code_of
from declared import module_of, read


# the files with the proof of a function, which stand in a folder with its name
FILES = "Invariants", "Answers", "Proof"
PROOF = re.compile(rf"/proofs/.+/(?:{'|'.join(FILES)})\.antt$")


def crate_of(path):
    return path.split("/")[1]


class Tree:
    """Sources, what they declare, and the names that mean something in each."""

    def __init__(self, texts):
        self.texts, self.declared, self.known = texts, [], {}
        code = Code(texts)
        for path, text in texts.items():
            found, self.known[path] = read(path, text, code)
            self.declared += found
        # what is passed on by `pub use`, and what it stands for
        self.passed = {(module_of(one.path), one.name, ""): next(iter(one.means[-1])) for one in self.declared if one.passes}

    def origin(self, meant):
        """Where a name comes from that is passed on."""
        met = set()
        while meant in self.passed and meant not in met:
            met.add(meant)
            meant = self.passed[meant]
        return meant

    def rename(self, files):
        """Puts files under other names."""
        self.texts = {files.get(path, path): text for path, text in self.texts.items()}
        self.known = {files.get(path, path): known for path, known in self.known.items()}
        self.declared = [dataclasses.replace(one, path=files[one.path], origin=one.home) if one.path in files else one for one in self.declared]


# ---- crates and files that have another name now
def likest(old, new):
    """For each group that is gone the new one that has most of it, if that is more than half: name to name."""
    found = {}
    for common, a, b in sorted(((len(old[a] & new[b]), a, b) for a in old for b in new), reverse=True):
        if 2 * common > len(old[a]) and a not in found and b not in found.values():
            found[a] = b
    return found


def grouped(pairs):
    groups = collections.defaultdict(set)
    for name, member in pairs:
        groups[name].add(member)
    return groups


def renamed_crates(before, now):
    """Crates go by what they declare, and in which file."""
    def declared(tree, other):
        known = {crate_of(path) for path in other.texts}
        return grouped((one.crate, (one.kind, one.path.split("/", 2)[2], one.name)) for one in tree.declared if one.crate not in known)
    return likest(declared(before, now), declared(now, before))


def renamed_files(before, now):
    """Files go by what they declare, word by word; not so those with the proof of a function, which have much in common with any other."""
    def declared(tree, other):
        own = [one for one in tree.declared if one.path not in other.texts and not PROOF.search(one.path)]
        return grouped((one.path, (one.kind, one.name, one.words)) for one in own)
    return likest(declared(before, now), declared(now, before))


def path_under(crates, path):
    first, crate, rest = path.split("/", 2)
    return f"{first}/{crates.get(crate, crate)}/{rest}"


def text_under(crates, path, texts):
    """A source with the crates by their present names. In code a module that has a crate's name stands for itself."""
    text = re.sub(r"(?<=\bRattle\.)\w+", lambda name: crates.get(name[0], name[0]), texts[path])
    if path.endswith(".rt"):
        others = {old: new for old, new in crates.items() if f"crates/{crate_of(path)}/src/{old}.rt" not in texts}
        text = re.sub(r"(?<![\w:])\w+(?=::)", lambda name: others.get(name[0], name[0]), text)
    return text


# ---- declarations
def name_pairs(a, b):
    """The names of two declarations, and of operators the parts: `◌when◌` and `◌if◌`, `when` and `if`."""
    sign = "◌" if "◌" in a.name else "::"
    return {(a.name, b.name), *zip(a.name.split(sign), b.name.split(sign))}


def standing(one):
    """What the names that something declares stand for, elsewhere and, where it is code, in code: module and name."""
    if one.kind == "contract":
        return []
    modules = [*([module_of(one.home)] if one.kind != "function" else ()), *([code_of(one.home)] if one.home.endswith(".rt") else ())]
    return [(module, name) for module in modules for name in (one.name, *one.members)]


def proofs_of(function):
    """The files that may have the proof of a function. One that calls itself has a folder with a plus."""
    *path, name = function.name.split("::")
    home = re.sub(r"(?:/lib|/main)?\.rt$", "", function.home.replace("/src/", "/proofs/", 1))
    return ["/".join((home, *path, folder, f"{file}.antt")) for folder in (name, f"+{name}") for file in FILES]


def may_move(a, b):
    return a.name == b.name and not any(PROOF.search(one.path) for one in (a, b))


# in which order partners are sought for what has none in its place: moved in its crate, moved to another one, renamed in its file
RULES = (
    lambda a, b: may_move(a, b) and a.crate == b.crate,
    may_move,
    lambda a, b: a.path == b.path,
)


class Comparison:
    """The pairs of two trees, an earlier one whose crates have their present names, and the present one."""

    def __init__(self, before, now):
        self.before, self.now = before, now
        self.pairs = []  # declarations, the earlier one and the present one
        self.renamed = set()  # names, the earlier one and the present one
        self.files = renamed_files(before, now)
        before.rename(self.files)
        self.pair("definition", "statement")
        self.pair("function")
        proofs = dict(self.proofs())
        self.files.update(proofs)
        before.rename(proofs)
        self.pair("proof")
        self.pair_contracts()
        self.names = {found for tree in (before, now) for one in tree.declared for found in standing(dataclasses.replace(one, members=()))}
        self.became = {pair for a, b in self.pairs for pair in zip(standing(a), standing(b))}
        both = [files for a, b in self.pairs if a.kind == "function" for files in zip(proofs_of(a), proofs_of(b))]
        folders = [tuple(module_of(file).rpartition(".")[0] for file in files) for files in both]
        # modules, the earlier one and the present one: files that have another name, and what is made for each function beside its proof
        self.modules = {**{module_of(a): module_of(b) for a, b in self.files.items()}, **{old: new for old, new in folders if old != new}}

    def difference(self, a, b):
        """How two texts differ: by 'nothing', by 'names' that were renamed, by 'variables', or None for more. In place of a word there must always be the same
        one. A name that was renamed must mean something in both files, and a variable must not."""
        if len(a.words) != len(b.words):
            return None
        words = set(zip(a.words, b.words))
        if any(len({pair[side] for pair in words}) < len(words) for side in (0, 1)):
            return None
        words = {(old, new) for old, new in words if old != new}
        if not words:
            return "nothing"
        known = self.before.known[a.path], self.now.known[b.path]
        words -= {(old, new) for old, new in words & (self.renamed | name_pairs(a, b)) if old in known[0] and new in known[1]}
        if not words:
            return "names"
        if a.kind != "contract" and a.code:
            return None
        own = a.variables() - known[0], b.variables() - known[1]
        return "variables" if all(old in own[0] and new in own[1] for old, new in words) else None

    def pair(self, *kinds):
        """Pairs what stands in one place under one name. Then, by the rules and until no more is found, what has the same text. What only passes a name on is
        renamed where that is."""
        old, new = ({one.place: one for one in tree.declared if one.kind in kinds} for tree in (self.before, self.now))
        self.pairs += [(old[place], new[place]) for place in old if place in new]
        gone = collections.defaultdict(list)
        for place in [place for place in old if place not in new]:
            gone[old[place].kind, len(old[place].words)].append(old[place])
        fresh = [new[place] for place in new if place not in old]
        left = len(fresh) + 1
        while len(fresh) < left:
            left = len(fresh)
            for rule in RULES:
                for b in list(fresh):
                    alike = gone[b.kind, len(b.words)]
                    others = self.renamed | {(b.name, b.name)}
                    a = next((a for a in alike if rule(a, b) and self.difference(a, b) and (not b.passes or (a.name, b.name) in others)), None)
                    if a:
                        alike.remove(a)
                        fresh.remove(b)
                        self.pairs.append((a, b))
                        self.renamed |= name_pairs(a, b) if a.name != b.name else set()

    def proofs(self):
        """The files with the proof of a function that has another place now."""
        for a, b in self.pairs:
            for old, new in zip(proofs_of(a), proofs_of(b)) if a.kind == "function" else ():
                if old in self.before.texts.keys() - self.now.texts.keys() and new in self.now.texts.keys() - self.before.texts.keys():
                    yield old, new

    def pair_contracts(self):
        """A contract follows its function."""
        old, new = ({(one.path, one.name, one.nth): one for one in tree.declared if one.kind == "contract"} for tree in (self.before, self.now))
        functions = [(a, b) for a, b in self.pairs if a.kind == "function"]
        contracts = [(old.get((a.path, a.name, a.nth)), new.get((b.path, b.name, b.nth))) for a, b in functions]
        self.pairs += [(a, b) for a, b in contracts if a and b]

    def fates(self):
        """What became of each declaration: a sign, the earlier one or None, the present one or None, and how they differ if they do not count as different.
        What changed on its way to another crate was removed from the one and added to the other."""
        for a, b in self.pairs:
            difference = self.same_names(a, b) and self.difference(a, b)
            if difference:
                yield "→" if a.crate != b.crate else "=" if a.place == b.place else "↔", a, b, difference
            elif a.crate == b.crate:
                yield "~", a, b, None
            else:
                yield from (("−", a, None, None), ("+", None, b, None))
        old, new = ({pair[side].place for pair in self.pairs} for side in (0, 1))
        yield from (("−", one, None, None) for one in self.before.declared if one.place not in old)
        yield from (("+", None, one, None) for one in self.now.declared if one.place not in new)

    def in_other_modules(self, alike):
        """What stands in a module whose parameters changed."""
        for a, b in alike:
            if not self.difference(*(dataclasses.replace(one, words=sum(one.within, ())) for one in (a, b))):
                yield b

    def same_names(self, a, b):
        """Whether the names in two texts, word by word, stand for the same. A variable may have the name of something that is declared in one of the trees."""
        for word, old, new in {found for found in zip(a.words + sum(a.within, ()), a.means, b.means) if found[1] != found[2]}:
            variable = not (old and new) and word in a.variables() & b.variables() and all(meant[:2] in self.names for meant in old | new)
            pairs = {(m, n) for m in old for n in new if self.same(m, n)}
            if not variable and ({m for m, _ in pairs}, {n for _, n in pairs}) != (old, new):
                return False
        return True

    def same(self, old, new):
        """Whether two names stand for the same, by where they are brought in from or by where they come from in the end."""
        for m, n in (old, new), (self.before.origin(old), self.now.origin(new)):
            module = next((m[0].replace(a, b, 1) for a, b in self.modules.items() if f"{m[0]}.".startswith(f"{a}.")), m[0])
            if n in (m, (module, *m[1:])) or (m[:2], n[:2]) in self.became and m[2] == n[2]:
                return True
        return False
