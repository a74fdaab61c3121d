"""The calls of the Python module, as rows of tables, by its signatures and docstrings."""
import ast
import re
from collections.abc import Iterator
from pathlib import Path
from typing import Union

MODULE = Path(__file__).resolve().parents[2] / "python/zonenorm"
Made = Union[ast.FunctionDef, ast.ClassDef]
Rows = list[tuple[str, str]]


def public() -> list[Made]:
    """The functions and classes that the module makes public, by their names."""
    (names,) = re.findall(r"^__all__ = \[(.*?)\]", (MODULE / "__init__.py").read_text(), re.M | re.S)
    statements = [it for path in MODULE.glob("_*.py") for it in ast.parse(path.read_text()).body]
    there = [it for it in statements if isinstance(it, (ast.FunctionDef, ast.ClassDef))]
    return sorted((it for it in there if f'"{it.name}"' in names), key=lambda it: it.name)


def docstring(it: Made) -> str:
    """A docstring as one paragraph, without its examples."""
    text = (ast.get_docstring(it) or "").partition(">>>")[0]
    return " ".join(re.sub(r"\n- ", " ", re.sub(r"(?<!:)\n- ", ";\n- ", text.replace("are\n\n-", "are:\n-"))).split())


def called(it: Made) -> str:
    """A call with its parameters and their defaults, without types. A tuple has its fields for parameters."""
    if isinstance(it, ast.ClassDef):
        makers = [made for made in it.body if isinstance(made, ast.FunctionDef) and made.name == "__init__"]
        fields = [ast.unparse(field.target) for field in it.body if isinstance(field, ast.AnnAssign)]
        return f"{it.name}({parameters(makers[0]) if makers else ', '.join(fields)})"
    return f"{it.name}({parameters(it)})"


def parameters(it: ast.FunctionDef) -> str:
    for one in [*it.args.args, *it.args.kwonlyargs]:
        one.annotation = None
    return re.sub(r"^(?:self|cls)(?:, )?", "", ast.unparse(it.args).replace("'", '"'))


def members(it: ast.ClassDef) -> Iterator[tuple[str, str]]:
    """The methods and properties of a class that have a docstring."""
    for made in it.body:
        if isinstance(made, ast.FunctionDef) and ast.get_docstring(made):
            marks = [ast.unparse(mark) for mark in made.decorator_list]
            owner = it.name if "classmethod" in marks else it.name.lower()
            name = f"{owner}.{made.name if 'property' in marks else called(made)}"
            yield name.replace("zone.__sub__(other)", "zone - other"), docstring(made)


def rows() -> tuple[Rows, Rows, Rows]:
    """The functions, the classes with their members, and the exceptions, each with what its docstring says."""
    functions: Rows = []
    classes: Rows = []
    errors: Rows = []
    for it in public():
        if isinstance(it, ast.FunctionDef):
            functions.append((called(it), docstring(it)))
        elif any("Error" in ast.unparse(base) or "Exception" in ast.unparse(base) for base in it.bases):
            errors.append((it.name, docstring(it)))
        else:
            classes += [(called(it), docstring(it)), *members(it)]
    return functions, classes, errors
