"""The header, the archive, the Rattle source and the Rust declarations say the same.

Nothing checks a C declaration against the code behind it, so this does: names,
parameters and their order, structs and their fields, limits and refusals.
"""

import os
import pathlib
import re
import subprocess
import unittest

ROOT = pathlib.Path(__file__).resolve().parents[2]
HEADER = ROOT / "client/include/sendurafi.h"
RUST = ROOT / "client/rust/src"
# The functions for C, and the structs that they answer.
RATTLE = [ROOT / "crates/sendurafi/src", ROOT / "crates/coded/src"]
ARCHIVE = os.environ.get("SENDURAFI_ARCHIVE", str(ROOT / "target/staticlib/libsendurafi.a"))
NM = os.environ.get("NM", "nm")

C_TYPES = {
    "uint8_t": "u8",
    "uint32_t": "u32",
    "uint64_t": "u64",
    "size_t": "usize",
}


def c_type(text):
    """A C type in Rust's words; a struct keeps its C name."""
    text = " ".join(text.replace("*", " * ").split())
    if text.endswith("*"):
        inner = text[:-1].strip()
        if inner.startswith("const "):
            return "*const " + C_TYPES[inner[len("const "):]]
        return "*mut " + C_TYPES[inner]
    return C_TYPES.get(text, text)


def c_header():
    """Functions as {name: (result, [(parameter, type)])}, structs as {name: [(field, type)]}."""
    text = re.sub(r"/\*.*?\*/", "", HEADER.read_text(), flags=re.S)
    structs = {}
    for body, name in re.findall(r"typedef struct \{(.*?)\} (\w+);", text, flags=re.S):
        fields = re.findall(r"(\w+) (\w+);", body)
        structs[name] = [(field, c_type(kind)) for kind, field in fields]
    functions = {}
    for result, name, inside in re.findall(r"^(\w+) (sendurafi_\w+)\(([^)]*)\);", text, flags=re.M):
        parameters = []
        for part in inside.split(","):
            kind, parameter = re.fullmatch(r"\s*(.*?)(\w+)\s*", part, flags=re.S).groups()
            parameters.append((parameter, c_type(kind)))
        functions[name] = (c_type(result), parameters)
    return functions, structs


def rust_like(text):
    """Functions marked for C and their structs, from Rust or Rattle source."""
    text = re.sub(r"//[^\n]*", "", text)
    # A type may stand with its path.
    text = re.sub(r"\b[a-z_]\w*::(?=[A-Z])", "", text)
    structs = {}
    pattern = r"#\[repr\(C\)\]\s*(?:#\[[^\]]*\]\s*)*(?:pub(?:\([a-z]+\))? )?struct (\w+)\s*\{(.*?)\}"
    for name, body in re.findall(pattern, text, flags=re.S):
        structs[name] = re.findall(r"(?:pub(?:\([a-z]+\))? )?(\w+)\s*:\s*([^,\n]+?)\s*(?:,|$)", body, flags=re.M)
    functions = {}
    pattern = r"fn (sendurafi_\w+)\s*\((.*?)\)\s*->\s*(\w+)"
    for name, inside, result in re.findall(pattern, text, flags=re.S):
        parameters = []
        for parameter, kind in re.findall(r"(\w+)\s*:\s*([^,]+?)\s*(?:,|$)", inside, flags=re.S):
            parameters.append((parameter, " ".join(kind.split())))
        functions[name] = (result, parameters)
    return functions, structs


def slices_apart(parameters):
    """A slice crosses as a pointer and a length."""
    apart = []
    for name, kind in parameters:
        slice_of = re.fullmatch(r"&(mut )?\[(\w+)\]", kind)
        if slice_of:
            pointer = "*mut " if slice_of.group(1) else "*const "
            apart += [(name, pointer + slice_of.group(2)), (name + "_len", "usize")]
        else:
            apart.append((name, kind))
    return apart


class SameNames(unittest.TestCase):
    """Compares the header with another source, whose struct names may differ."""

    maxDiff = None

    def compare(self, theirs):
        functions, structs = c_header()
        their_functions, their_structs = theirs
        self.assertTrue(functions)
        self.assertEqual(sorted(functions), sorted(their_functions))
        called = {}
        for name, (result, parameters) in functions.items():
            their_result, their_parameters = their_functions[name]
            their_parameters = slices_apart(their_parameters)
            self.assertEqual([p for p, _ in parameters], [p for p, _ in their_parameters], name)
            kinds = [(result, their_result)]
            kinds += [(k, t) for (_, k), (_, t) in zip(parameters, their_parameters)]
            for kind, their_kind in kinds:
                self.match(name, structs, called, kind, their_kind)
        # Structs inside structs are met while their fields are compared.
        waiting = list(called)
        while waiting:
            name = waiting.pop()
            fields, their_fields = structs[name], their_structs[called[name]]
            self.assertEqual([f for f, _ in fields], [f for f, _ in their_fields], name)
            for (_, kind), (_, their_kind) in zip(fields, their_fields):
                if kind in structs and kind not in called:
                    waiting.append(kind)
                self.match(name, structs, called, kind, their_kind)
        self.assertEqual(sorted(called), sorted(structs))
        self.assertEqual(len(set(called.values())), len(called), called)

    def match(self, where, structs, called, kind, their_kind):
        if kind in structs:
            self.assertEqual(called.setdefault(kind, their_kind), their_kind, where)
        else:
            self.assertEqual(kind, their_kind, where)

    def test_rust(self):
        self.compare(rust_like((RUST / "ffi.rs").read_text()))

    def test_rattle(self):
        sources = [source for folder in RATTLE for source in sorted(folder.glob("**/*.rt"))]
        self.assertTrue(sources, f"no Rattle source in {RATTLE}")
        text = "\n".join(source.read_text() for source in sources)
        self.compare(rust_like(text))
        exported = re.findall(r"#\[unsafe\(no_mangle\)\]\s*pub extern \"C\" fn (\w+)", text)
        self.assertEqual(sorted(exported), sorted(c_header()[0]))


class Archive(unittest.TestCase):
    def symbols(self, *words):
        run = subprocess.run([NM, "-P", *words, ARCHIVE], capture_output=True, text=True, check=True)
        lines = [line.split() for line in run.stdout.splitlines()]
        return sorted(line[0] for line in lines if len(line) > 1)

    def test_exported(self):
        self.assertEqual(self.symbols("--extern-only", "--defined-only"), sorted(c_header()[0]))

    def test_needs_nothing(self):
        """But what compilers make of loops that copy, fill or compare."""
        needed = set(self.symbols("--undefined-only"))
        self.assertEqual(needed - {"memcpy", "memmove", "memset", "memcmp"}, set())


class Numbers(unittest.TestCase):
    """Limits and refusals: the header's macros beside the Rust constants."""

    def macros(self):
        return dict(re.findall(r"#define SENDURAFI_(\w+) (\d+)u\b", HEADER.read_text()))

    def constants(self, name):
        text = (RUST / name).read_text()
        return dict(re.findall(r"pub const (\w+): u(?:32|size) = (\d+);", text))

    def test_limits(self):
        macros = self.macros()
        constants = self.constants("limits.rs")
        self.assertEqual(sorted(constants), ["MAX_DEGREE", "MAX_FILE_BYTES", "MAX_VARS", "P"])
        for name, number in constants.items():
            self.assertEqual(macros[name], number, name)

    def test_refusals(self):
        macros = {n[len("REFUSED_"):]: x for n, x in self.macros().items() if n.startswith("REFUSED_")}
        self.assertEqual(macros, self.constants("refusal.rs"))
        self.assertEqual(sorted(map(int, macros.values())), list(range(1, 14)))

    def test_kinds(self):
        macros = self.macros()
        kinds = [macros[name] for name in ("DONE", "REJECTED", "REFUSED")]
        self.assertEqual(kinds, ["0", "1", "2"])


if __name__ == "__main__":
    unittest.main()
