"""What the code of a tree shows to the outside, and what its names mean, for bench/moved. tests/rattle.py reads it, and tests/faces.py says which are calls."""
import collections
import pathlib
import sys
import tempfile

sys.path.insert(0, str(pathlib.Path(__file__).resolve().parent.parent / "tests"))
import faces
import rattle
import sources


class Code:
    """The code among some sources, which are paths and texts."""

    def __init__(self, texts):
        self.modules = {}  # by the path of the file
        self.shown = collections.defaultdict(list)  # the names from outside of a public call, by its path and its name there
        with tempfile.TemporaryDirectory() as home:
            for path, text in texts.items():
                file = pathlib.Path(home, path)
                file.parent.mkdir(parents=True, exist_ok=True)
                file.write_text(text if path.endswith(".rt") else "")
            kept, sources.ROOT = sources.ROOT, pathlib.Path(home)
            try:
                roots = {crate: rattle.crate_at(crate) for crate in sources.crates()}
            except rattle.Unread as fault:
                line, what, file = fault.args
                raise ValueError(f"{sources.named(file)} cannot be read: {what} at line {line}") from None
            finally:
                sources.ROOT = kept
            self.faces = rattle.Faces({crate: root for crate, root in roots.items() if root})
            names = {}
            for module in [module for root in self.faces.roots.values() for module in root.within()]:
                # a module in the midst of a file is read as one definition
                if not module.parent or module.file != module.parent.file:
                    path = module.file.relative_to(home).as_posix()
                    self.modules[path] = module
                    names.update((id(item), (path, name)) for name, item in module.named_functions())
            for shown, item in [call for _, (functions, *_) in faces.shown_by(self.faces) for call in functions]:
                if id(item) in names:
                    self.shown[names[id(item)]].append(shown)

    def meant(self, path, name):
        """What a name stands for in a file: the module, the name there, and nothing more of it. Where it is brought in from elsewhere, its path says it."""
        module = self.modules.get(path)
        items = self.faces.named(module, name) if module else []
        if items:
            homes = [(item, "") if isinstance(item, rattle.Module) else (item.module, item.name) for item in items]
            return {("::".join((home.crate, *home.path)), own, "") for home, own in homes}
        uses = [item for _, item in module.items if isinstance(item, rattle.Use) and item.name == name] if module else []
        return {("::".join(use.path[:-1]), use.path[-1], "") for use in uses}


def code_of(path):
    """The module of a file of code, as a path in it has it."""
    _, crate, _, *rest = path.removesuffix(".rt").removesuffix("/mod").split("/")
    return "::".join([crate, *(rest if rest not in (["lib"], ["main"]) else ())])
