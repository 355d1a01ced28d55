"""The structs, names and functions of python/ beside those of include/qsm.h."""

from __future__ import annotations

import ast
import ctypes
import re
import unittest
from enum import EnumMeta
from pathlib import Path
from typing import Any

import qsm
from qsm import library as qsm_c

ROOT = Path(__file__).resolve().parents[2]
TEXT = (ROOT / "include" / "qsm.h").read_text()


def forms(words: str) -> list[Any]:
    """The types here that stand for one of the header."""
    name = words.replace("const ", "").strip()
    if name == "uint8_t *":
        return [ctypes.c_void_p, ctypes.c_char_p]
    pointer, name = name.endswith("*"), name.rstrip(" *")
    form: Any = qsm_c.FORMS[name[7:]] if name.startswith("struct ") else getattr(ctypes, "c_" + (name if name == "size_t" else name.replace("_t", "")))
    return [ctypes.POINTER(form) if pointer else form]


class Header(unittest.TestCase):
    def test_structs(self) -> None:
        """Alignment and size of each struct, place and size of each field, as the header asserts them; and no other ones."""
        structs = re.findall(r"QSM_STRUCT\((\w+), (\d+), (\d+)\);", TEXT)
        fields = re.findall(r"QSM_AT\((\w+), (\w+), (\d+), (\d+)\);", TEXT)
        self.assertEqual({name for name, _, _ in structs}, set(qsm_c.FORMS))
        for name, align, size in structs:
            form = qsm_c.FORMS[name]
            self.assertEqual((ctypes.alignment(form), ctypes.sizeof(form)), (int(align), int(size)), name)
        asserted = {(name, field) for name, field, _, _ in fields}
        declared = {(name, field) for name, form in qsm_c.FORMS.items() for field, *_ in getattr(form, "_fields_")}
        self.assertEqual(asserted, declared)
        for name, field, place, size in fields:
            at = getattr(qsm_c.FORMS[name], field)
            self.assertEqual((at.offset, at.size), (int(place), int(size)), f"{name}.{field}")

    def test_functions(self) -> None:
        """Each function that the header declares, with the types of its result and arguments; and no other one."""
        found = re.findall(r"^((?:struct )?\w+) (qsm_\w+)\(([^;]*?)\);", TEXT, re.MULTILINE | re.DOTALL)
        self.assertEqual({name for _, name, _ in found}, set(qsm_c.FUNCTIONS))
        for result, name, words in found:
            gives, takes = qsm_c.FUNCTIONS[name]
            self.assertIn(gives, forms(result), name)
            declared = [] if words == "void" else [word.strip() for word in words.split(",")]
            self.assertEqual(len(declared), len(takes), name)
            for argument, form in zip(declared, takes):
                self.assertIn(form, forms(re.sub(r"\w+$", "", argument)), f"{name}: {argument}")

    def test_names(self) -> None:
        """The numbers of each name."""
        prefixes: dict[EnumMeta, str] = {
            qsm.Refusal: "", qsm.Offset: "", qsm.Sccr1: "", qsm.Scsr: "", qsm.Pin: "", qsm.Field: "FIELD_", qsm.Cause: "LINES_",
        }
        numbers = {name: int(value, 0) for name, value in re.findall(r"QSM_(\w+) = (0x[0-9A-Fa-f]+|\d+)", TEXT)}
        for enum, prefix in prefixes.items():
            for name, member in enum.__members__.items():
                self.assertEqual(numbers[prefix + name], member.value, name)
        self.assertEqual(numbers["INDEX_SPACING"], qsm.Index.SPACING)
        self.assertEqual(numbers["INDEX_MARKS"], qsm.Index.MARKS)
        self.assertEqual(numbers["EDITIONS_RECORDS"] * numbers["EDITIONS_ADDED"], qsm.Editions.ROOM)
        self.assertEqual(re.findall(r"#define QSM_VERSION (\d+)", TEXT), [str(qsm.VERSION)])

    def test_documented(self) -> None:
        """Every function has the types of its arguments and of its result, and what is public a text."""
        for file in sorted((ROOT / "python" / "qsm").glob("*.py")):
            for node in ast.walk(ast.parse(file.read_text())):
                if isinstance(node, (ast.FunctionDef, ast.ClassDef)) and not node.name.startswith("_"):
                    self.assertTrue(ast.get_docstring(node), f"{file.name}: {node.name}")
                if isinstance(node, ast.FunctionDef):
                    self.assertIsNotNone(node.returns, f"{file.name}: {node.name}")
                    for arg in node.args.args:
                        self.assertTrue(arg.annotation or arg.arg == "self", f"{file.name}: {node.name}: {arg.arg}")
