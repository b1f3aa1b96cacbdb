"""backend.py: the wheel, what is installed of it, and how it is built."""

import ast
import base64
import concurrent.futures
import email
import hashlib
import importlib.metadata
import io
import itertools
import os
import pathlib
import re
import shutil
import subprocess
import sys
import tarfile
import tempfile
import unittest
import zipfile
from unittest import mock

TOP = pathlib.Path(__file__).resolve().parents[2]
sys.path.append(str(TOP / "python"))
backend = importlib.import_module("backend")
STEM = f"const_oid-{importlib.import_module('const_oid').__version__}"
SOURCES = [*(TOP / "python/src/const_oid").glob("*.*"), *(TOP / "rust").glob("*names.tsv")]
PACKAGE = {path.name for path in SOURCES} | {"_native.abi3.so"}
INFORMATION = {"licenses/LICENSE-APACHE", "licenses/LICENSE-MIT", "METADATA", "RECORD", "WHEEL"}
FILES = {f"const_oid/{name}" for name in PACKAGE}
FILES |= {f"{STEM}.dist-info/{name}" for name in INFORMATION}
INSTALLED = {"library": "installed"}
CC = os.environ.get("CC", "cc")
CRATE = "rust/const-oid-c/Cargo.toml"

# How pip names the platforms of a Python whose sizes have 64 bits, and 32.
TAGS = {
    "linux-x86_64": ("linux_x86_64", "linux_i686"),
    "linux-aarch64": ("linux_aarch64", "linux_armv7l"),
    "linux-armv7l": ("linux_armv7l", "linux_armv7l"),
    "a-b.c": ("a_b_c", "a_b_c"),
}
# What the last line of a build says that is refused, and how it is called.
OLD = (
    "sys.version_info, sys.version, sys.modules['tomllib'] = (3, 8, 18), '3.8.18 (of a day)', None"
)
WINDOWS = "sys.platform, sys.modules['fcntl'] = 'win32', None"
FREE = "sysconfig.get_config_var = {'Py_GIL_DISABLED': 1}.get"
SETTING = "the one setting that there is is library=installed, and these are "
FIRST = "to be installed first: "
REFUSED = [
    (r"needs Python 3\.11 or later on Linux, not 3\.8\.18 on linux", {"before": OLD}),
    (r"needs Python 3\.11 or later on Linux, not .* on win32", {"before": WINDOWS}),
    ("a free-threaded Python does not have abi3, the stable ABI that .* for", {"before": FREE}),
    (SETTING + r"\{'library': 'instaled'\}", {"settings": {"library": "instaled"}}),
    (SETTING + r"\{'libary': 'installed'\}", {"settings": {"libary": "installed"}}),
    (SETTING + ".* 'libary': 'instaled'}", {"settings": INSTALLED | {"libary": "instaled"}}),
    (
        FIRST + r"/missing/Python\.h \(Debian: python3-dev\)",
        {"before": "sysconfig.get_path = lambda name: '/missing'"},
    ),
    (
        FIRST + r"a C compiler, \S+ \(Debian: gcc\); cargo and rustc, 1.*",
        {"settings": None, "PATH": "/missing"},
    ),
    (FIRST + r"a C compiler, .*; pkg-config \(Debian: pkg-config\)", {"PATH": "/missing"}),
    (FIRST + r"a C compiler, no-cc \(Debian: gcc\)", {"CC": "no-cc"}),
    (FIRST + "cargo and rustc, 1.85 or later.*", {"settings": None, "RUSTC": "no-rustc"}),
    (
        FIRST + "the library const_oid_c, .* PKG_CONFIG_PATH.*",
        {"PKG_CONFIG_PATH": "/", "PKG_CONFIG_LIBDIR": "/"},
    ),
    (".* --no-such-option -shared .* ends with status 1", {"CFLAGS": "--no-such-option"}),
    (".* -o .* --no-such-option ends with status 1", {"LDFLAGS": "--no-such-option"}),
]


def ran(program, folder, **variables):
    options = {"cwd": folder, "env": os.environ | variables, "text": True, "capture_output": True}
    return subprocess.run([sys.executable, "-c", program], **options)


def built(call, settings=INSTALLED, python=TOP / "python", before="", **variables):
    """What a hook of the backend writes into a new folder in a new process: its files, and what the process says."""
    with tempfile.TemporaryDirectory() as folder:
        program = f"import backend; print(backend.{call}({folder!r}, {settings!r}))"
        run = ran(f"import sys, sysconfig; {before}\n{program}", python, **variables)
        files = {path.name: path.read_bytes() for path in pathlib.Path(folder).iterdir()}
    return run.returncode, run.stdout.strip() or run.stderr.strip(), files


class Wheel(unittest.TestCase):
    @classmethod
    def setUpClass(cls):
        status, cls.name, wheels = built("build_wheel")
        assert status == 0, cls.name
        cls.wheel = wheels[cls.name]
        cls.archive = zipfile.ZipFile(io.BytesIO(cls.wheel))
        cls.files = {name: cls.archive.read(name) for name in cls.archive.namelist()}

    def test_the_wheel_has_the_package_alone_and_its_digests(self):
        """Nothing but the package and what says what it is, which is installed; all may read it, none may run it."""
        modes = [(entry.filename, entry.external_attr >> 16) for entry in self.archive.infolist()]
        self.assertEqual(sorted((name, 0o100644) for name in FILES), sorted(modes))
        contents = {name.split("/")[-1]: content for name, content in self.files.items()}
        sources = {path.name: path.read_bytes() for path in [*SOURCES, *TOP.glob("LICENSE-*")]}
        self.assertEqual([], [name for name, source in sources.items() if source != contents[name]])
        files = importlib.metadata.files("const-oid")
        installed = {str(path) for path in files if path.suffix != ".pyc"}
        of_pip = "INSTALLER", "REQUESTED", "direct_url.json"
        self.assertEqual(FILES | {f"{STEM}.dist-info/{name}" for name in of_pip}, installed)
        record = f"{STEM}.dist-info/RECORD"
        rows = dict(row.split(",", 1) for row in self.files[record].decode().splitlines())
        self.assertEqual((FILES, ","), (set(rows), rows.pop(record)))
        for name, found in rows.items():
            content = self.files[name]
            digest = base64.urlsafe_b64encode(hashlib.sha256(content).digest()).decode()
            self.assertEqual(f"sha256={digest.rstrip('=')},{len(content)}", found)

    def test_the_metadata_is_that_of_the_project(self):
        """The licence is an expression, and no classifier says it again. The tag says the ABI and the machine."""
        self.assertRegex(self.name, rf"^{STEM}-cp311-abi3-[a-z]+_[a-z0-9_]+\.whl$")
        said = email.message_from_bytes(self.files[f"{STEM}.dist-info/WHEEL"])
        self.assertEqual(self.name, f"{STEM}-{said['Tag']}.whl")
        self.assertEqual("false", said["Root-Is-Purelib"])
        project = backend.PROJECT
        wanted = {
            "Metadata-Version": ["2.4"],
            "Name": [project["name"]],
            "Version": [project["version"]],
            "Summary": [project["description"]],
            "Description-Content-Type": ["text/markdown"],
            "Requires-Python": [">=3.11"],
            "License-Expression": [project["license"]],
            "License-File": ["LICENSE-APACHE", "LICENSE-MIT"],
            "Classifier": project["classifiers"],
        }
        said = email.message_from_bytes(self.files[f"{STEM}.dist-info/METADATA"])
        self.assertEqual(wanted, {field: said.get_all(field) for field in said})
        self.assertEqual((TOP / "python/README.md").read_text(encoding="utf-8"), said.get_payload())
        self.assertNotIn("License ::", str(project["classifiers"]))

    def test_a_source_archive_builds_the_same_wheel(self):
        """The archive has all that the wheel is made from, and nothing else. Each has the same bytes each time."""
        status, name, archive = built("build_sdist")
        self.assertEqual((0, f"{STEM}.tar.gz", {f"{STEM}.tar.gz"}), (status, name, set(archive)))
        # Two that differ would take minutes to print.
        self.assertTrue(archive == built("build_sdist")[2])
        with tempfile.TemporaryDirectory() as folder:
            tar = tarfile.open(fileobj=io.BytesIO(archive[name]))
            tar.extraction_filter = getattr(tarfile, "data_filter", None)
            tar.extractall(folder)
            (source,) = pathlib.Path(folder).iterdir()
            found = source.name, (source / "PKG-INFO").read_bytes()
            self.assertEqual((STEM, self.files[f"{STEM}.dist-info/METADATA"]), found)
            wanted = 0, self.name, {self.name: self.wheel}
            self.assertTrue(wanted == built("build_wheel", python=source))
            others = (
                "rust/const-oid-c/target/x.rs",
                "rust/const-oid/src/x.rs~",
                "src/const_oid/x.py",
            )
            for stray in (*others, "x"):
                (source / stray).parent.mkdir(exist_ok=True)
                (source / stray).touch()
            self.assertTrue(archive == built("build_sdist", python=source)[2])
            self.check_cargo(source, folder)

    @unittest.skipUnless(shutil.which("cargo"), "cargo is not installed")
    def check_cargo(self, source, folder):
        """For this machine whatever the configuration says, in a new home, and not in the folder of the archive."""
        rustup = os.environ.get("RUSTUP_HOME", str(pathlib.Path.home() / ".rustup"))
        before = sorted(source.rglob("*"))
        variables = {
            "HOME": folder,
            "CARGO_HOME": f"{folder}/cargo",
            "RUSTUP_HOME": rustup,
            "CARGO_TARGET_DIR": "made",
            "CARGO_BUILD_TARGET": "another",
            "PYTHONDONTWRITEBYTECODE": "1",
        }
        status, said, files = built("build_wheel", None, python=source, **variables)
        self.assertEqual((0, [self.name]), (status, list(files)), said)
        self.assertEqual(before, sorted(source.rglob("*")))

    def test_the_module_needs_the_limited_api_alone(self):
        """It shows its start alone, and needs the library of C alone: that of object identifiers is in it. Python's
        headers declare what the stable ABI of 3.11 has, as the tag says; the source uses nothing else.
        """
        module = importlib.import_module("const_oid._native").__file__
        symbols = backend._output("nm", "-D", "--defined-only", module)
        self.assertRegex(symbols, r"^[0-9a-f]+ T PyInit__native$")
        needed = re.findall(r"\(NEEDED\).*\[(.*)\]", backend._output("readelf", "-dW", module))
        self.assertEqual(["libc.so.6"], needed)
        folders = [f"-I{backend.INCLUDE}", f"-I{TOP / 'crates/const_oid_c/include'}"]
        command = [*backend.COMPILER, "-std=c11", *folders, *(TOP / "python/src").glob("*.c")]
        self.assertIn("#define Py_LIMITED_API 0x030B0000\n", backend._output(*command, "-E", "-dM"))
        # Macros of a header are for its own Python, and so is a # in a format.
        own = r'Py_(X?(INC|DEC|SET)REF|XNewRef|CLEAR|RETURN_\w+)[(;]|"[^"\n]*\w#'
        for path in (TOP / "python/src").glob("*.[ch]"):
            self.assertNotRegex(path.read_text(encoding="utf-8"), own)
        backend._output(*command, "-Wall", "-Wextra", "-Werror", "-fsyntax-only")

    def test_the_flags(self):
        said = []

        def output(*command):
            said.append(" ".join(map(str, command)))
            return "host: this\n"

        self.enterContext(mock.patch.dict(os.environ, CFLAGS="-g", LDFLAGS="-L."))
        with mock.patch.multiple(backend, _output=output, _missing=lambda _: ()):
            self.assertRaises(FileNotFoundError, backend._compiled, None)
        wanted = f"""{backend.RUSTC} -vV
cargo build --quiet --release --locked --offline --target this --target-dir @ --manifest-path {TOP / CRATE}
{" ".join(backend.COMPILER)} -std=c11 -O2 -fPIC -fno-plt -fvisibility=hidden -g -shared -Wl,--exclude-libs,ALL -s \
-I{backend.INCLUDE} -I{backend.HEADER.parent} {TOP}/python/src/names.c {TOP}/python/src/native.c \
{TOP}/python/src/table.c @/this/release/libconst_oid_c.a -o @/made -L."""
        folder = re.search("--target-dir (.*) --manifest", said[1])[1]
        self.assertEqual(wanted.replace("@", folder).split("\n"), said)

    def test_a_library_below_a_space(self):
        include, library = backend._library(True, None)
        with tempfile.TemporaryDirectory(prefix="a' b") as folder:
            paths = "libdir=${pcfiledir}\nincludedir=${pcfiledir}\nName: a\nDescription: a\nVersion: 1\n"
            pathlib.Path(folder, "const_oid_c.pc").write_text(paths, encoding="utf-8")
            for path in (library, *pathlib.Path(include).glob("*.h")):
                shutil.copy(path, folder)
            for compiler in ("", " "):
                found = built("build_wheel", PKG_CONFIG_PATH=folder, CC=compiler)
                self.assertEqual((0, self.name), found[:2])

    def test_what_is_missing_is_named(self):
        """All that is missing is named before anything is built, and what fails is reported. Python 3.8 reads all."""
        ast.parse((TOP / "python/backend.py").read_text(encoding="utf-8"), feature_version=(3, 8))
        for text, call in REFUSED:
            with self.subTest(text):
                status, said, files = built("build_wheel", **call)
                *lines, last = said.split("\n")
                self.assertEqual((1, {}), (status, files))
                self.assertRegex(last, f"^const-oid: {text}$")
                self.assertEqual("FLAGS" in str(call), lines != [], "only a compiler says more")

    def test_versions_and_platforms(self):
        old = ["rustc 1.85 or later (https://rustup.rs)"]
        for said in ("1.9.0", "1.84.1 (e 2025-01-27)", "1.85.0", "1.100.0-nightly", "2.0.0"):
            wanted = old if said[:4] in ("1.9.", "1.84") else []
            output = mock.patch.object(backend, "_output", lambda *_: f"rustc {said}")
            with output, mock.patch("shutil.which", str):
                self.assertEqual(wanted, [*backend._missing(False)], said)
        for name, bits in itertools.product(TAGS, (64, 32)):
            before = f"import sys, sysconfig; sys.maxsize, sysconfig.get_platform = 2**{bits - 1}, lambda: {name!r}"
            said = ran(f"{before}; import backend; print(backend.TAG)", TOP / "python").stdout
            self.assertEqual(f"cp311-abi3-{TAGS[name][bits == 32]}\n", said, (bits, name))

    def test_an_editable_install_sees_a_change(self):
        """A change of a source is seen at once, and a wrong setting removes nothing. The wheel leads to a checkout."""
        with tempfile.TemporaryDirectory() as folder:
            top = pathlib.Path(folder).resolve()
            left_out = shutil.ignore_patterns("out", "tests")
            shutil.copytree(TOP / "python", top / "python", ignore=left_out)
            said = f"const-oid: there is no {top}/{CRATE}: install a checkout of the repository, or a source archive"
            self.assertEqual((1, said, {}), built("build_editable", python=top / "python"))
            for name in ("LICENSE-APACHE", "LICENSE-MIT", "crates", "rust"):
                (top / name).symlink_to(TOP / name)
            # What an earlier build left goes.
            (top / "python/out/const_oid/stale.py").mkdir(parents=True)
            # Of two at once each waits for the other, however slow.
            slow = "import shutil, time; rm = shutil.rmtree; shutil.rmtree = lambda *_, **__: rm(*_) or time.sleep(1)"
            with concurrent.futures.ThreadPoolExecutor() as builds:
                build = lambda _: built("build_editable", python=top / "python", before=slow)
                (status, name, files), other = builds.map(build, range(2))
            wrong = built("build_editable", {"library": "instaled"}, top / "python")
            self.assertEqual((0, 0, 1), (status, other[0], wrong[0]), (name, other[1]))
            self.assertEqual(PACKAGE, set(os.listdir(top / "python/out/const_oid")))
            archive = zipfile.ZipFile(io.BytesIO(files[name]))
            wanted = {"const_oid.pth", *(name for name in FILES if "dist-info" in name)}
            self.assertEqual(wanted, set(archive.namelist()))
            (place,) = archive.read("const_oid.pth").decode().splitlines()
            with (top / "python/src/const_oid/names.py").open("a", encoding="utf-8") as source:
                source.write("\nCHANGED = name_of(ObjectIdentifier('2.5.4.3'))\n")
            run = ran("import const_oid; print(const_oid.names.CHANGED)", place)
            self.assertEqual(("cn\n", ""), (run.stdout, run.stderr))
            self.assertEqual({"const_oid", "lock"}, set(os.listdir(place)))

    def test_a_table_of_the_user_is_not_read(self):
        with tempfile.TemporaryDirectory() as folder:
            pathlib.Path(folder, "names.tsv").write_text("x\tX\t1.2\tcn\n", encoding="utf-8")
            program = "print(names.by_name('cn'), *names.entries()[0])"
            run = ran(f"from const_oid import names; {program}", folder)
        self.assertEqual(("2.5.4.3 1.2.112.0.2.0.34.101.66 bake\n", ""), (run.stdout, run.stderr))

    def test_wrong_modules_are_not_imported(self):
        """One over a library of another version, and one with the slot of 3.12. A compiler of two words makes them."""
        other = (
            "static uint32_t other(void) { return 2 << 16 | 3; }\n#define const_oid_version other\n"
        )
        python = "#define Py_LIMITED_API 0x030B0000\n#include <Python.h>\n#define Py_Version 0x030C0000\n"
        wrong = {
            f"#include <const_oid.h>\n{other}": "ImportError: the library const_oid_c has version 2, not 1"
        }
        for header, text in (
            wrong | ({python: "SystemError: "} if sys.version_info < (3, 12) else {})
        ).items():
            with self.subTest(text), tempfile.TemporaryDirectory() as folder:
                path = pathlib.Path(folder, "before.h")
                path.write_text(header, encoding="utf-8")
                status, name, files = built(
                    "build_wheel", CFLAGS=f"-include {path}", CC=f"env {CC}"
                )
                self.assertEqual(0, status, name)
                zipfile.ZipFile(io.BytesIO(files[name])).extractall(folder)
                self.assertIn(text, ran("import const_oid", folder).stderr)
