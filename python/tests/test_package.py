"""The package const_oid: its examples, its page, the codes and version of the header, its names and its types."""

import contextlib
import doctest
import importlib
import inspect
import io
import json
import pathlib
import pydoc
import re
import shutil
import subprocess
import sys
import types
import unittest
import warnings
from unittest import mock

import const_oid
import typed
from const_oid import Code, ObjectIdentifier, OidError, SortedMap, names, sorted_map
from test_values import Under, error_of, is_linear

TOP = pathlib.Path(__file__).resolve().parents[2]
STUB = (TOP / "python/src/const_oid/_native.pyi").read_text(encoding="utf-8")
STUB = STUB.split("class Table(")[0]
HEADER = (TOP / "crates/const_oid_c/include/const_oid.h").read_text(encoding="utf-8")


def load_tests(loader, tests, pattern):
    # doctest does not look for properties of a class in C.
    const_oid.__test__ = {
        name: vars(ObjectIdentifier)[name].__doc__ for name in ("arcs", "der", "parent")
    }
    return unittest.TestSuite([tests, *map(doctest.DocTestSuite, (const_oid, names, sorted_map))])


@contextlib.contextmanager
def installed(*names):
    """Those of other packages that are installed, without their warnings."""
    with warnings.catch_warnings(action="ignore"):
        found = []
        for name in names:
            with contextlib.suppress(ImportError):
                found.append(importlib.import_module(name))
        yield found


class Package(unittest.TestCase):
    def test_the_page_prints_its_comments(self):
        """A line of the page that prints has what it prints as its comment, if what the block imports is installed."""
        page = (TOP / "python/README.md").read_text(encoding="utf-8")
        blocks = re.findall(r"^```python\n(.*?)^```", page, re.M | re.S)
        self.assertIn("import ObjectIdentifier", blocks[0])
        variables = {}
        for block in blocks:
            wanted = re.findall(r"^ *print\(.*\)\s+# (.*)$", block, re.M)
            with self.subTest(block), installed(), contextlib.redirect_stdout(io.StringIO()) as out:
                self.assertTrue(0 < len(wanted) == block.count("print("))
                try:
                    exec(block, variables)
                except ImportError as error:
                    others = "asn1crypto|cryptography|numpy|pandas|pyasn1"
                    self.assertRegex(block, f"^(import|from) ({others})")
                    self.skipTest(str(error))
                self.assertEqual(wanted, out.getvalue().splitlines())

    def test_the_walk_finds_elements_and_errors(self):
        """Each element with the tag 6 has its place. What is cut or goes on too far, and a long tag, are errors."""
        examples = doctest.DocTestParser().get_examples(const_oid.__doc__)
        variables = {**vars(const_oid), "contextlib": contextlib}
        exec(next(one.source for one in examples if "def " in one.source), variables)

        def found(der):
            walk = variables["identifiers"](der)
            return [(place, getattr(oid, "code", str(oid))) for place, oid in walk]

        octets = "06032A0304 A004 06022A80 048105 0603550403 040506012A0603 80012A"
        octets += "03040006012A 0681012A"
        whole = bytes.fromhex(octets) + b"\6\x7f" + bytes(127) + b"\6\x81\x80" + bytes(128)
        whole = b"\x30\x82" + len(whole).to_bytes(2) + whole
        wanted = [(4, "1.2.3.4"), (11, Code.BASE128), (18, "2.5.4.3"), (39, Code.NO_ELEMENT)]
        self.assertEqual([*wanted, (43, "0" + 127 * ".0"), (172, "0" + 128 * ".0")], found(whole))
        others = bytes.fromhex("300206032A0304"), bytes.fromhex("1F1F1E") + bytes(30)
        for der in [*(whole[:end] for end in range(1, len(whole))), *others]:
            self.assertIsInstance(error_of(found, der), ValueError, der.hex())
        deep = b"\6\1\x2a"
        for _ in range(sys.getrecursionlimit()):
            deep = b"\x30\x82" + len(deep).to_bytes(2) + deep
        self.assertIs(RecursionError, type(error_of(found, deep)))
        wanted, der = [(len(deep) + 4, "1.2")], b"\4\x82" + len(deep).to_bytes(2) + deep
        self.assertEqual(wanted, found(der + b"\6\1\x2a"))
        self.assertTrue(is_linear(found, lambda count: (b"\6\x0d\x2a" + bytes(12)) * count))

    def test_numpy_and_pandas_take_an_identifier_as_one_value(self):
        oid, _ = oids = [ObjectIdentifier("2.5.4"), ObjectIdentifier("2.5.6")]
        other = types.SimpleNamespace(empty=lambda shape, kind: {"made": (shape, kind)})
        with mock.patch.dict(sys.modules, numpy=other):
            for given in ((), (None,), ("O", False)):
                self.assertEqual({"made": ((), "O"), (): oid}, oid.__array__(*given))
        for numpy in self.enterContext(installed("numpy")):
            array, one = numpy.array(oids), numpy.asarray(oid)
            found = array.shape, array.dtype.char, array.tolist(), one.shape, one[()]
            self.assertEqual(((2,), "O", oids, (), oid), found)
        for pandas in self.enterContext(installed("pandas")):
            frame = pandas.DataFrame({"oid": [oid, oid.child(3)], "one": oid})
            frame["set"] = frame.loc[1, "oid"] = frame.iloc[0, 0] = frame.at[1, "one"] = oid
            made = [
                frame["oid"],
                frame["one"],
                frame["set"],
                frame.assign(x=oid)["x"],
                pandas.DataFrame([oid, oid])[0],
            ]
            made += [
                pandas.Series(oid, index=[1, 2]),
                pandas.Series([None, oid], dtype=object).fillna(oid),
            ]
            self.assertEqual([[oid, oid]] * len(made), list(map(list, made)))
            self.assertEqual(
                [oid, 1],
                [frame.set_index("oid")[:1].loc[oid, "one"], pandas.Series({oid: 1}).loc[oid]],
            )

    def test_pydantic_takes_and_gives_text(self):
        """pydantic, and the version 1 that is in version 2, take text or an identifier, and give text in JSON."""
        oid = ObjectIdentifier("2.5.4")
        texts = {"oid": "2.5.4", "key": type("Text", (str,), {})("2.5.4.3")}
        found = self.enterContext(installed("pydantic", "pydantic.v1"))
        fields = {"oid": (ObjectIdentifier, ...), "key": (Under, ...)}
        for model in [one.create_model("Model", **fields) for one in found]:
            with self.subTest(model):
                made = model(oid=oid, key=oid.child(3)), model(oid=oid, key=Under("2.5.4.3"))
                for one in (model(**texts), *made):
                    wanted = oid, oid.child(3), Under
                    self.assertEqual(wanted, (one.oid, one.key, type(one.key)))
                    self.assertEqual(texts, json.loads(one.json()))
                    self.assertEqual(one, model.parse_raw(one.json()))
                for wrong in ("1.40", 3, None, [2, 5], b"2.5.4", bytearray(b"2.5.4")):
                    error = error_of(lambda: model(oid=wrong, key="2.5.4.3"))
                    self.assertIsInstance(error, ValueError)
                error = error_of(lambda: model(oid="1.40", key="2.5.4.3"))
                for text in (str(error), error.json(), repr(error.errors())):
                    self.assertIn("OID contains out-of-range arc: 40, given '1.40'", text)
                self.assertIn(error.errors()[0]["type"], ("value_error", "value_error.oid"))
                if hasattr(model, "model_json_schema"):
                    schema = model.model_json_schema()
                    self.assertEqual("string", schema["properties"]["oid"]["type"])
        if not found:
            self.skipTest("pydantic is not installed")

    def test_codes_and_version_are_those_of_the_header(self):
        codes = HEADER.split("enum const_oid_code")[1].split("}")[0]
        codes = dict(re.findall(r"CONST_OID_(\w+) = (\d+)", codes))
        version = re.findall(r"define CONST_OID_VERSION_\w+ (\d+)", HEADER)
        found = {code.name: str(int(code)) for code in Code} | {"OK": "0"}
        self.assertEqual((codes, ".".join(version)), (found, const_oid.__version__))

    def test_public_names(self):
        public = {"Code", "ObjectIdentifier", "OidError", "SortedMap", "__version__", "names"}
        self.assertEqual((public, public), (set(const_oid.__all__), set(dir(const_oid))))
        functions = "by_name common_entries display entries name_of names_of parse"
        self.assertEqual(functions.split(), names.__all__)
        methods = "arcs child count der from_arcs from_bytes from_der index ndim parent read_der starts_with"
        found = [name for name in dir(ObjectIdentifier) if not name.startswith("_")]
        self.assertEqual(methods.split(), found)
        for call in (names.entries, names.common_entries):
            self.assertIs(call(), call())
        for kind in (ObjectIdentifier, OidError, Code):
            self.assertEqual("const_oid", kind.__module__)
        for kind in (OidError, Code):
            self.assertTrue(inspect.getsource(kind).startswith(f"class {kind.__name__}("))
        self.assertEqual(0, ObjectIdentifier("2.5").ndim)
        self.assertEqual((Code.EMPTY, 5), (Code(5), Code.EMPTY))
        self.assertEqual(set(Code.__members__), set(dir(Code)))

    @unittest.skipIf(sys.version_info < (3, 15), "this Python has no lazy imports")
    def test_imports_may_be_lazy(self):
        code = "from collections.abc import Sequence; from const_oid import ObjectIdentifier as kind; print({})"
        calls = "kind('1.x')", "kind(1)", "type('', (kind,), {})('2.5').__copy__()"
        for call in (*calls, "issubclass(kind, Sequence)"):
            command = [sys.executable, "-X", "lazy_imports=all", "-c", code.format(call)]
            run = subprocess.run(command, text=True, capture_output=True)
            wanted = r"^2\.5$|^True$|\n(const_oid\.Oid|Type)Error: "
            self.assertRegex(run.stdout + run.stderr, wanted, call)

    def test_help_has_what_is_public(self):
        said = pydoc.render_doc(const_oid, renderer=pydoc.plaintext)
        self.assertEqual(const_oid.__all__[:4], re.findall(r"^    class (\w+)", said, re.M))
        fields = {"code": "Why", "detail": "The arc", "given": "The text", "piece": "The index"}
        for field, words in fields.items():
            self.assertRegex(said, rf" {field}\n .*{words}")
        self.assertNotRegex(said, r"\nFUNCTIONS\n|builtins\.int:|bit_length")

    def test_functions_have_examples(self):
        for owner in (names, ObjectIdentifier, OidError, SortedMap, SortedMap.__base__):
            public = [name for name in vars(owner) if not name.startswith("_")]
            for name in getattr(owner, "__all__", public):
                value = getattr(owner, name, None)
                if callable(value) or isinstance(value, (property, types.GetSetDescriptorType)):
                    self.assertIn(">>> ", inspect.getdoc(value), name)

    def test_the_stub_has_the_arguments(self):
        functions = dict(re.findall(r"^    def (\w+)\((.*)\) ->", STUB, re.M))
        public = {name for name in vars(ObjectIdentifier) if not name.startswith("_")}
        self.assertEqual({"ndim"}, public - set(functions))
        self.assertIn("@disjoint_base\nclass ObjectIdentifier(", STUB)
        self.assertIs(TypeError, type(error_of(type, "Both", (ObjectIdentifier, int), {})))
        methods = "from_bytes from_der read_der from_arcs child starts_with index count __format__ __deepcopy__"
        for name in methods.split():
            text = inspect.getattr_static(ObjectIdentifier, name).__text_signature__
            declared = re.findall(r", (\w+):.*?(?=, )", functions[name])
            self.assertEqual(re.findall(r", (\w+)", text), declared, name)
            self.assertTrue(functions[name].endswith(", /") and text.endswith(", /)"), name)

    def test_the_stub_has_the_results(self):
        oid = Under("1.2.840")
        calls = "read_der(memoryview(oid.der)) read_der(oid.der) __getitem__(0) "
        calls += "__getitem__(slice(9)) "
        calls += "arcs der child(1) from_bytes(bytes(oid)) from_der(oid.der) from_arcs(oid) starts_with(oid) index(2)"
        calls += " count(2) __len__() __bytes__() __format__('') __hash__() __lt__(oid) __gt__(oid) __deepcopy__({})"

        def described(value):
            kind = {Under: "Self"}.get(type(value), type(value).__name__)
            if value == oid.arcs:
                return "tuple[int, ...]"
            return f"tuple[{', '.join(map(described, value))}]" if kind == "tuple" else kind

        made = {}
        for call in calls.split():
            made.setdefault(call.partition("(")[0], []).append(described(eval(f"oid.{call}")))
        for name, results in made.items():
            self.assertEqual(re.findall(rf"def {name}\(.*\) -> (.*): ", STUB), results)
        self.assertEqual(["parent"], re.findall(r"def (\w+)\(self.*None:", STUB))
        typed.uses()

    @unittest.skipUnless(shutil.which("mypy"), "mypy is not installed")
    def test_mypy_accepts_declared_uses(self):
        command = "mypy --strict --cache-dir=/dev/null --python-version=3.11 const_oid ../tests/typed.py".split()
        run = subprocess.run(command, cwd=TOP / "python/src", text=True, capture_output=True)
        self.assertEqual((0, ""), (run.returncode, run.stderr), run.stdout)
