"""What a library of Rattle shows to others: its modules, read from its sources, and all that can be named or called from outside.

A source is read token by token (tests/tokens.py). What is not understood is an error: `Unread`.
"""
import collections
import re

from sources import at, text_of
from tokens import Unread, clauses, depths, tokens

# the words that begin a path within the crate
WITHIN = ("crate", "self", "super")

# what may be derived: its contracts are those of std. Anything else that has an attribute is not understood
DERIVED = ("Drop", "Clone", "Copy", "PartialEq", "Eq", "Debug")

# a function: its module, name and line, each thing that it is given with its type, its answer's type, its clauses, whether C may call it, what it calls, and
# the name of the cycle that it is in, if it is in one
Function = collections.namedtuple("Function", "module name line given answer clauses exported called cycle")
# a struct or an enum, with the tokens that say what it holds
Type = collections.namedtuple("Type", "module name line tokens")
# a const, or another name for a type, with the tokens that say what it is
Constant = collections.namedtuple("Constant", "module name line tokens")
# a function in braces: the path of the type or trait, what the prover puts before its name, whether it is public, and the function
Method = collections.namedtuple("Method", "path title public function")
# a name for what a path leads to; a star for all that it holds
Use = collections.namedtuple("Use", "path name")


class Module:
    def __init__(self, crate, path, file, parent):
        self.crate, self.path, self.file, self.parent = crate, path, file, parent
        self.items = []    # whether it is public, and the item
        self.methods = []
        self.blocks = []   # the line and the type of each block that has the functions of a trait
        self.foreign = []  # the lines where functions of C are declared

    name = property(lambda self: self.path[-1])

    def root(self):
        return self.parent.root() if self.parent else self

    def named_functions(self):
        """The functions of the module and of types that it has, each with its name there: that of its type stands before it."""
        own = [(item.name, item) for _, item in self.items if isinstance(item, Function)]
        return own + [(f"{one.title}::{one.function.name}", one.function) for one in self.methods]

    def functions(self):
        return [item for _, item in self.named_functions()]

    def within(self):
        """The module and all below it."""
        yield self
        for _, item in self.items:
            if isinstance(item, Module):
                yield from item.within()


class Reader:
    """Reads the items of one file into its module."""

    def __init__(self, file):
        text = text_of(file)
        self.tokens, self.place = (*tokens(text), (text.count("\n"), None)), 0

    def next(self, *wanted):
        """The next token, where it is one of those that are wanted."""
        line, token = self.tokens[self.place]
        if token is None or wanted and token not in wanted:
            raise Unread(line, f"`{token}` where one of {' '.join(wanted)} should stand" if token else "an end too early")
        self.place += 1
        return token

    def meets(self, *tokens):
        """Passes over these tokens, where they come next."""
        came = [token for _, token in self.tokens[self.place:self.place + len(tokens)]] == list(tokens)
        self.place += len(tokens) if came else 0
        return came

    def line(self):
        return self.tokens[self.place][0]

    def until(self, *ends):
        """The tokens up to one of these that stands in no bracket, which is passed over too."""
        taken, depth = [], 0
        while depth or self.tokens[self.place][1] not in ends:
            token = self.next()
            depth += (token in ("(", "[", "{")) - (token in (")", "]", "}"))
            taken.append(token)
        self.next()
        return taken

    def items(self, module, end=None):
        while self.tokens[self.place][1] != end:
            marks = self.attributes()
            # those of a whole file may stand alone in it
            if self.tokens[self.place][1] != end:
                self.item(module, self.public(), marks)

    def attributes(self):
        """Passes over the attributes before an item, or at the head of a file: whether C may call it, and the name of its cycle."""
        exported, cycle = False, None
        while self.tokens[self.place][1] == "#":
            line = self.line()
            self.next()
            whole = self.meets("!")
            self.next("[")
            said = self.until("]")
            head, inner = said[:1], [word for word in said[2:-1] if word != ","]
            if said in (["no_mangle"], ["unsafe", "(", "no_mangle", ")"]) and not whole:
                exported = True
            elif head == ["cycle"] and len(inner) == 1 and not whole:
                cycle = inner[0]
            elif head != ["tactic"] and (head != ["derive"] or whole or not set(inner) <= set(DERIVED)):
                raise Unread(line, "`#` where an item should begin")
        return exported, cycle

    def public(self):
        """Passes over `pub`, and says whether it stands there, for everybody."""
        shown = self.meets("pub")
        if shown and self.meets("("):
            self.until(")")
            return False
        return shown

    def item(self, module, public, marks):
        line, word = self.line(), self.next()
        if word == "extern":
            self.next('"C"')
            if self.meets("{"):
                self.until("}")
                module.foreign.append(line)
                return
            marks, word = (True, marks[1]), self.next("fn")
        if word == "const" and self.meets("fn"):
            word = "fn"
        if word == "fn":
            module.items.append((public, self.function(module, line, *marks)))
        elif word == "mod":
            self.module(module, public, line)
        elif word == "use":
            module.items += ((public, use) for use in self.tree((), ";"))
        elif word == "impl":
            self.block(module)
        elif word == "trait":
            name, _ = self.next(), self.until("{")
            self.methods(module, (name,), name, public)
        elif word in ("struct", "enum"):
            name, held = self.next(), []
            while self.tokens[self.place][1] != ";" and "{" not in held:
                held.append(self.next())
                if held[-1] in ("(", "{"):
                    held += self.until({"(": ")", "{": "}"}[held[-1]])
            self.meets(";")
            module.items.append((public, Type(module, name, line, held)))
        elif word in ("const", "type"):
            name, said = self.next(), self.until(";")
            path = [token for token in said[1:] if token != "::"]
            named = word == "type" and all(re.fullmatch(r"\w+", str(token)) for token in path)
            module.items.append((public, Use(tuple(path), name) if named else Constant(module, name, line, said)))
        else:
            raise Unread(line, f"`{word if isinstance(word, str) else word[0]}` where an item should begin")

    def module(self, parent, public, line):
        name = self.next()
        path = (*parent.path, name)
        if self.next(";", "{") == "{":
            child = Module(parent.crate, path, parent.file, parent)
            self.items(child, "}")
            self.next("}")
        else:
            places = [at(f"crates/{parent.crate}/src/{'/'.join(path)}{end}") for end in (".rt", "/mod.rt")]
            file = next((file for file in places if file.is_file()), None)
            if not file:
                raise Unread(line, f"the module {name}, which has no file")
            child = Module(parent.crate, path, file, parent)
            read(child)
        parent.items.append((public, child))

    def tree(self, before, *ends):
        """The names that a `use` brings in: by a path, a star, a list in braces, or another name."""
        path, name = list(before), None
        self.meets("::")
        while True:
            if self.meets("{"):
                while not self.meets("}"):
                    yield from self.tree(path, ",", "}")
                    if self.tokens[self.place - 1][1] == "}":
                        break
                self.next(*ends)
                return
            path.append(self.next())
            if self.meets("as"):
                name = self.next()
            if not self.meets("::"):
                break
        self.next(*ends)
        if path[-1] == "self" and len(path) > 1:
            path.pop()
        yield Use(tuple(path), name or path[-1])

    def block(self, module):
        """The functions of a type, or those that it has by a trait: these have the names of both before them, as the prover has them."""
        self.generics()
        said = self.until("{")
        path = [token for token, depth in zip(said, depths(said)) if not depth and token not in ("::", "<", "&")]
        if "for" not in path:
            self.methods(module, tuple(path), path[-1])
            return
        trait, kind = path[:path.index("for")], path[path.index("for") + 1:]
        if not re.fullmatch(r"\w+", " ".join(map(str, kind[-1:]))):
            raise Unread(self.line(), "a block of a trait for no type")
        module.blocks.append((self.line(), tuple(kind)))
        # what a type has by a trait, of a crate here or of std, is shown wherever the type is
        self.methods(module, tuple(kind), kind[-1] + trait[-1], True)

    def methods(self, module, path, title, shown=None):
        """The functions in braces, each public where it says so, or all of them as the braces are; what is ghost, or a type of a trait, has no name from outside."""
        while not self.meets("}"):
            (exported, cycle), public = self.attributes(), self.public()
            word, after = (token for _, token in self.tokens[self.place:self.place + 2])
            if isinstance(word, tuple) or word == "type" or word == "const" and after != "fn":
                # a number of a type stands as what the prover makes of it, which is asked for nothing
                if word == "const":
                    module.methods.append(Method(path, title, False, Function(module, after, self.line(), [], [], [], False, set(), None)))
                self.until(";")
                continue
            self.meets("const")
            line, exported = self.line(), self.meets("extern", '"C"') or exported
            self.next("fn")
            module.methods.append(Method(path, title, public if shown is None else shown, self.function(module, line, exported, cycle)))

    def generics(self):
        """Passes over what stands in angle brackets, which may hold others."""
        if self.meets("<"):
            depth = 1
            while depth:
                depth += {"<": 1, ">": -1}.get(self.next(), 0)

    def function(self, module, line, exported, cycle):
        name = self.next()
        self.generics()
        self.next("(")
        given, rest = [], self.until(")")
        while rest:
            end = next((n for n, (token, depth) in enumerate(zip(rest, depths(rest))) if token == "," and not depth), len(rest))
            one, rest = rest[:end], rest[end + 1:]
            named = [token for token in one[:one.index(":") if ":" in one else len(one)] if token not in ("mut", "&") and token[0] != "'"]
            if len(named) != 1 or not re.fullmatch(r"\w+", str(named[0])):
                raise Unread(line, f"`{' '.join(map(str, one))}` among what is given to {name}")
            given.append((named[0], one[one.index(":") + 1:] if ":" in one else one))
        answer, clauses = [], []
        if self.meets("->"):
            while self.tokens[self.place][1] not in ("{", "where", ";") and not isinstance(self.tokens[self.place][1], tuple):
                answer.append(self.next())
                if answer[-1] in ("(", "["):
                    answer += [*self.until({"(": ")", "[": "]"}[answer[-1]]), {"(": ")", "[": "]"}[answer[-1]]]
        if self.meets("where"):
            while self.tokens[self.place][1] not in ("{", ";") and not isinstance(self.tokens[self.place][1], tuple):
                self.next()
        while isinstance(self.tokens[self.place][1], tuple):
            clauses.append(self.next())
        # a trait's function need not have a body
        body = self.until("}") if self.next("{", ";") == "{" else []
        # what is called, with types in angle brackets or without, and the numbers of types that are read
        called = {word for word, after in zip(body, body[1:]) if after == "(" and re.fullmatch(r"\w+", str(word))}
        called |= {word for place, word in enumerate(body) if body[place + 1:place + 3] == ["::", "<"]} | {word for word in body if re.fullmatch(r"[A-Z_]+", str(word))}
        return Function(module, name, line, given, answer, clauses, exported, called, cycle)


def read(module):
    """Reads a module's file, and those of the modules below it."""
    try:
        Reader(module.file).items(module)
    except Unread as fault:
        raise fault if len(fault.args) == 3 else Unread(*fault.args, module.file) from None


def crate_at(name):
    """A crate's modules: those of its library, else those of its program."""
    files = [file for file in (at(f"crates/{name}/src/{root}.rt") for root in ("lib", "main")) if file.is_file()]
    if not files:
        return None
    root = Module(name, (), files[0], None)
    read(root)
    # functions are met by their types: those of a type of another crate would be met by none
    for module in root.within():
        for line, kind in module.blocks:
            if not any(isinstance(one, Type) for one in Faces({name: root}).meant(module, kind)):
                raise Unread(line, "a block of a trait for no type of the crate", module.file)
    return root


# ---- what names mean, and what is shown

class Faces:
    """What the libraries of a tree show, by the roots of its crates."""

    def __init__(self, roots):
        self.roots = roots

    def named(self, module, name, met=()):
        """All that a name may mean in a module, by its own items and by stars: a module and a function may share one. Nothing, where it is of no crate here."""
        if (module, name) in met:
            return []
        met, found = (*met, (module, name)), []
        for _, item in module.items:
            if not isinstance(item, Use):
                found += [item] if item.name == name else []
            elif item.path[-1] == "*":
                found += [one for home in self.meant(module, item.path[:-1], met) if isinstance(home, Module) for one in self.named(home, name, met)]
            elif item.name == name:
                found += self.meant(module, item.path, met)
        return found

    def meant(self, module, path, met=()):
        """All that a path may mean in a module. What it begins with may be a crate's name, with `::` before it or not, whatever else has that name."""
        first, *rest = path
        if first in WITHIN:
            found = [{"crate": module.root(), "self": module, "super": module.parent}[first]]
        else:
            found = self.named(module, first, met) + [self.roots[crate] for crate in self.roots if crate == first]
        for name in rest:
            homes = [home for home in found if isinstance(home, Module)]
            # what a type holds counts as the type
            found = [home for home in found if isinstance(home, Type)]
            found += [one for home in homes for one in ([home.parent] if name == "super" else self.named(home, name, met))]
        return [one for one in found if one]

    def shown(self, module, name, met=()):
        """What a module shows: its name from outside, and the item, or nothing where it is of no crate here."""
        if module in met:
            return
        met = (*met, module)
        for public, item in module.items:
            if not public:
                continue
            if isinstance(item, Use):
                star = item.path[-1] == "*"
                for one in self.meant(module, item.path[:-1] if star else item.path) or [None]:
                    if isinstance(one, Module):
                        yield from self.shown(one, name if star else f"{name}::{item.name}", met)
                    else:
                        yield f"{name}::{item.name}", one
            elif isinstance(item, Module):
                yield from self.shown(item, f"{name}::{item.name}", met)
            else:
                yield f"{name}::{item.name}", item

    def held(self, module, tokens):
        """The types that stand among tokens: those of paths and of single names."""
        paths = re.findall(r"[A-Za-z_]\w*(?: :: \w+)*", " ".join(token if isinstance(token, str) else " " for token in tokens))
        return [item for path in paths for item in self.meant(module, tuple(path.split(" :: "))) if isinstance(item, Type)]

    def face(self, crate):
        """All that a library shows: functions, each with its name from outside, and types; and the names that lead to no crate here."""
        functions, known, lost = [], [], []
        for name, item in self.shown(self.roots[crate], crate):
            if isinstance(item, Function):
                functions.append((name, item))
            elif isinstance(item, Type):
                known.append(item)
            elif isinstance(item, Constant):
                known += self.held(item.module, item.tokens)
            else:
                lost.append(name)
        # what C may call, wherever it stands
        own = [item for module in self.roots[crate].within() for item in module.functions() if item.exported]
        functions += [(f"{crate}::{item.name}", item) for item in own if not any(item is shown for _, shown in functions)]
        # types are also known by what a function is given and answers, and by what other types hold; and with them come their functions
        met = []
        for _, item in functions:
            known += self.held(item.module, [token for _, kind in item.given for token in kind] + item.answer)
        while known:
            one = known.pop()
            if one in met:
                continue
            met.append(one)
            known += self.held(one.module, one.tokens)
            for module in one.module.root().within():
                for path, _, public, item in module.methods:
                    if public and not item.exported and any(kind is one for kind in self.meant(module, path)):
                        functions.append((f"{crate}::{one.name}::{item.name}", item))
                        known += self.held(module, [token for _, kind in item.given for token in kind] + item.answer)
        return functions, met, lost
