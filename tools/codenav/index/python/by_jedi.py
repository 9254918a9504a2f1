"""What jedi, Debian's python3-jedi, says of the attributes and parameters that Python's rules alone
leave open: it infers what values are."""

import os
from typing import Any, Callable, Iterable, Iterator, Optional, Sequence

import jedi
from jedi.api.classes import Name
from jedi.api.environment import InterpreterEnvironment
from jedi.inference import InferenceState
from jedi.inference.compiled.subprocess import functions
from jedi.inference.gradual import typeshed

from codenav.index.python.modules import Module, Modules
from codenav.index.python.source import At
from codenav.index.python.touched import Touched
from codenav.texts.decoded import body_of, lines_in

Found = tuple[str, Optional[At]]
"""A file, and where it has a name; None for the file itself."""


def without_stubs(names: Iterable[str], touched: Touched) -> None:
    """Takes the sources of modules as they are: stubs of them elsewhere would catch the answers."""
    tops, loaded = set(names), typeshed.try_to_load_stub_cached

    def load(state: Any, names: Sequence[str], *rest: Any, **more: Any) -> Any:
        touched.names.add(names[0])
        return None if names[0] in tops else loaded(state, names, *rest, **more)

    typeshed.try_to_load_stub_cached = load


def with_names(touched: Touched) -> None:
    """Keeps which modules are looked for, and in which folders."""
    looked = functions.get_module_info

    def look(state: Any, **how: Any) -> Any:
        touched.names.add(how["string"].rpartition(".")[2])
        touched.around.update(map(str, how.get("path") or how.get("sys_path") or ()))
        return looked(state, **how)

    functions.get_module_info = look


def with_one_text(text_of: Callable[[str], Optional[str]]) -> None:
    """Has files be the same texts where they're imported as where they're asked of: what is parsed of
    a path is kept, and another text of it would change that."""
    parse = InferenceState.parse_and_get_code

    def parsed(state: Any, code: Any = None, **how: Any) -> Any:
        file = how.get("file_io")
        if code is None and file is not None:
            code = text_of(str(file.path))
        return parse(state, code, **how)

    InferenceState.parse_and_get_code = parsed


class Project(jedi.Project):  # type: ignore[misc]
    """A folder's modules come before installed ones; but code is loaded, as from libraries that aren't
    in Python, from installed ones alone."""

    def __init__(self, root: str, own: list[str], installed: list[str]) -> None:
        super().__init__(root, sys_path=installed, smart_sys_path=False)
        self.own = own

    def _get_sys_path(self, *_: Any, **__: Any) -> list[str]:
        return [*self.own, *self._sys_path]


class Jedi:
    """Asks jedi, file by file. What it keeps of parsed files goes into a folder."""

    def __init__(self, modules: Modules, kept: str) -> None:
        self.modules = modules
        self.environment = InterpreterEnvironment()
        self.projects = dict[str, Any]()
        self.script: Any = None
        jedi.settings.cache_directory = kept
        jedi.settings.dynamic_params_for_other_modules = False
        own = [os.path.basename(path) for path in modules.tops()]
        without_stubs((name.removesuffix(".py") for name in own), modules.touched)
        with_names(modules.touched)
        with_one_text(self.text)

    def open(self, module: Module) -> None:
        """Takes a file to be asked of."""
        root = self.modules.root(module.path)
        if root not in self.projects:
            own = [root, self.modules.folder, *self.modules.others]
            self.projects[root] = Project(root, own, self.modules.paths)
        self.script = jedi.Script(
            self.text(module.path),
            path=module.path,
            project=self.projects[root],
            environment=self.environment,
        )

    def text(self, path: str) -> Optional[str]:
        """The text of a file of the folder, as jedi reads it; None for another one, and for one that isn't
        read."""
        module = self.modules.at(path) if self.modules.is_own(path) else None
        if module is None:
            return None
        lines = lines_in(body_of(module.path).decode(module.encoding))
        for (line, start), other in module.soft:
            lines[line] = lines[line][:start] + other + lines[line][start + len(other) :]
        return "\n".join(lines)

    def found(self, at: At, is_set: bool) -> list[Found]:
        """Where a name leads; for an attribute that is set what the value before the dot has by it."""
        script = self.script
        script._inference_state.reset_recursion_limitations()
        leaf = script._module_node.get_name_of_position((at[0] + 1, at[1]))
        if leaf is None or leaf.start_pos != (at[0] + 1, at[1]):
            return []
        name = Name(script._inference_state, script._get_module_context().create_name(leaf))
        found = self.of_value(leaf) if is_set else self.of_name(name)
        return sorted(set(found), key=lambda own: (own[0], own[1] or (-1, 0)))

    def of_name(self, name: Any) -> Iterator[Found]:
        """Where a name leads; for what is in no file where stubs have it."""
        places = list(map(self.place, self.goto(name, False)))
        if None in places:
            places += map(self.place, self.goto(name, True))
        yield from filter(None, places)

    @staticmethod
    def goto(name: Any, only_stubs: bool) -> Any:
        """What jedi answers of a name."""
        return name.goto(follow_imports=True, follow_builtin_imports=True, only_stubs=only_stubs)

    def of_value(self, leaf: Any) -> Iterator[Found]:
        """Where the attribute leads that is set of a value."""
        state = self.script._inference_state
        before = leaf.get_previous_leaf().get_previous_leaf()
        for own in self.script.infer(*before.start_pos):
            for value in own._name.infer():
                for each in value.goto(leaf.value):
                    place = self.place(Name(state, each))
                    if place and place != (self.script.path, (leaf.line - 1, leaf.column)):
                        yield place

    @staticmethod
    def place(name: Any) -> Optional[Found]:
        """The place of an answer; None for one that is in no file."""
        path = name.module_path
        if path is None:
            return None
        if name.type == "module":
            return str(path), None
        return (str(path), (name.line - 1, name.column)) if name.line is not None else None
