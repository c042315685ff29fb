"""The package of the tools: what its functions say of their parameters and results, and which folders stand on which."""
import ast
import importlib
import inspect
import re
import typing
import unittest

from support import TOOLS

import gossip

PACKAGE = TOOLS / "gossip"
# how many parameters a function has at most: more of them are the fields of a dataclass with a name of its own
MOST_PARAMETERS = 6
COLUMNS = 140


def module_name(path):
    """The name of the module of a file."""
    return ".".join(path.relative_to(TOOLS).with_suffix("").parts).removesuffix(".__init__")


MODULES = {path: importlib.import_module(module_name(path)) for path in sorted(PACKAGE.rglob("*.py"))}


def is_public(name):
    return name.isidentifier() and (not name.startswith("_") or name.endswith("__"))


def functions_of(module):
    """The public functions of a module and of its classes, by their names."""
    own = [each for each in vars(module).values() if getattr(each, "__module__", None) == module.__name__]
    methods = [value for each in own if inspect.isclass(each) for value in vars(each).values()]
    for each in [*own, *methods]:
        function = inspect.unwrap(getattr(each, "fget", None) or getattr(each, "func", None) or getattr(each, "__func__", each))
        if inspect.isfunction(function) and function.__code__.co_filename == module.__file__ and is_public(function.__name__):
            yield f"{module.__name__}.{function.__qualname__}", function


def parameters_of(function):
    """The parameters of a function, but for the object or class that a method is of."""
    return [name for name in inspect.signature(function).parameters if name not in ("self", "cls")]


class Lines(unittest.TestCase):
    def test_they_are_short(self):
        for path in MODULES:
            with self.subTest(path=path):
                self.assertLessEqual(max(map(len, path.read_text("utf-8").splitlines())), COLUMNS)


class Functions(unittest.TestCase):
    def setUp(self):
        self.functions = dict(each for module in MODULES.values() for each in functions_of(module))

    def test_all_are_seen(self):
        nodes = [node for path in MODULES for node in ast.walk(ast.parse(path.read_text("utf-8")))]
        names = [node.name for node in nodes if isinstance(node, ast.FunctionDef)]
        self.assertGreater(len(self.functions), 0.9 * len([name for name in names if not name.startswith("_")]))

    def test_parameters_and_results_have_types_that_resolve(self):
        for name, function in self.functions.items():
            with self.subTest(name=name):
                self.assertEqual({*parameters_of(function), "return"} - typing.get_type_hints(function).keys(), set())

    def test_parameters_are_few(self):
        for name, function in self.functions.items():
            with self.subTest(name=name):
                self.assertLessEqual(len(parameters_of(function)), MOST_PARAMETERS)

    def test_fields_have_types_that_resolve(self):
        classes = [each for module in MODULES.values() for each in vars(module).values() if inspect.isclass(each)]
        for each in [each for each in classes if each.__module__.startswith("gossip.")]:
            with self.subTest(name=each.__qualname__):
                self.assertGreaterEqual(typing.get_type_hints(each).keys(), getattr(each, "__dataclass_fields__", {}).keys())


class Folders(unittest.TestCase):
    def setUp(self):
        self.folders = re.findall(r"^  (\w+)  ", gossip.__doc__, re.MULTILINE)

    def test_each_is_told(self):
        self.assertEqual(sorted(self.folders), sorted(path.name for path in PACKAGE.iterdir() if (path / "__init__.py").exists()))
        for path, module in MODULES.items():
            self.assertTrue(module.__doc__, path)

    def test_each_stands_on_those_above_it(self):
        for path in MODULES:
            below = re.findall(r"^(?:from|import) gossip\.(\w+)", path.read_text("utf-8"), re.MULTILINE)
            for name in below:
                with self.subTest(path=path, name=name):
                    self.assertLessEqual(self.folders.index(name), self.folders.index(path.parent.name))


if __name__ == "__main__":
    unittest.main()
