"""The build backend of this folder (PEP 517 and 660): a wheel with the extension module and the tables of names, and a
source archive of all that the wheel is made from. README.md says what it needs."""

import sys

if sys.version_info < (3, 11) or sys.platform != "linux":
    raise SystemExit(
        f"const-oid: needs Python 3.11 or later on Linux, not {sys.version.split()[0]} on {sys.platform}"
    )

import base64
import fcntl
import gzip
import hashlib
import io
import os
import pathlib
import re
import shlex
import shutil
import subprocess
import sysconfig
import tarfile
import tempfile
import tomllib
import zipfile

HERE = pathlib.Path(__file__).resolve().parent
# In a source archive, what a checkout has beside this folder is in it.
TOP = HERE if (HERE / "PKG-INFO").exists() else HERE.parent
CRATE = TOP / "rust/const-oid-c/Cargo.toml"
HEADER = TOP / "crates/const_oid_c/include/const_oid.h"
EXTENSION = "_native.abi3.so"
SOURCES = ("__init__.py", "_native.pyi", "names.py", "py.typed", "sorted_map.py")
PACKAGE = [HERE / "src/const_oid" / name for name in SOURCES]
PACKAGE += [TOP / "rust/names.tsv", TOP / "rust/common_names.tsv"]
LICENCES = ("LICENSE-APACHE", "LICENSE-MIT")
ARCHIVED = (
    "backend.py",
    "pyproject.toml",
    "README.md",
    "src/*.[ch]",
    *(f"src/const_oid/{name}" for name in SOURCES),
)
ARCHIVED_OF_TOP = (
    *LICENCES,
    "crates/const_oid_c/include/*.h",
    "rust/*names.tsv",
    "rust/const-oid*/Cargo.*",
    "rust/const-oid/README.md",
    "rust/const-oid/examples/*.rs",
    "rust/const-oid*/src/**/*.rs",
)
COMPILER = shlex.split(os.environ.get("CC", "")) or ["cc"]
RUSTC = os.environ.get("RUSTC") or "rustc"
INCLUDE = pathlib.Path(sysconfig.get_path("include"))

if sysconfig.get_config_var("Py_GIL_DISABLED"):
    raise SystemExit(
        "const-oid: a free-threaded Python does not have abi3, the stable ABI that the module is for"
    )
if not CRATE.exists():
    raise SystemExit(
        f"const-oid: there is no {CRATE}: install a checkout of the repository, or a source archive"
    )
PROJECT = tomllib.loads((HERE / "pyproject.toml").read_text(encoding="utf-8"))["project"]
PROJECT["version"] = ".".join(
    re.findall(r"define CONST_OID_VERSION_\w+ (\d+)", HEADER.read_text(encoding="utf-8"))
)
PLATFORM = sysconfig.get_platform()
if sys.maxsize < 2**32:  # on a 64-bit kernel, whose name it then has
    PLATFORM = PLATFORM.replace("x86_64", "i686").replace("aarch64", "armv7l")
TAG = f"cp311-abi3-{re.sub('[-.]', '_', PLATFORM)}"
STEM = f"{PROJECT['name'].replace('-', '_')}-{PROJECT['version']}"


def _output(*command):
    """What a program prints; its errors end the build."""
    run = subprocess.run(command, text=True, stdout=subprocess.PIPE)
    if run.returncode:
        raise SystemExit(
            f"const-oid: {shlex.join(map(str, command))} ends with status {run.returncode}"
        )
    return run.stdout


def _missing(is_installed):
    """What has to be installed first."""
    if not shutil.which(COMPILER[0]):
        yield f"a C compiler, {COMPILER[0]} (Debian: gcc)"
    if not (INCLUDE / "Python.h").exists():
        yield f"{INCLUDE}/Python.h (Debian: python3-dev)"
    if is_installed:
        if not shutil.which("pkg-config"):
            yield "pkg-config (Debian: pkg-config)"
        elif subprocess.run(["pkg-config", "--exists", "const_oid_c"]).returncode:
            yield "the library const_oid_c, where pkg-config finds it (see crates/const_oid_c/README.md; set PKG_CONFIG_PATH)"
    elif not (shutil.which("cargo") and shutil.which(RUSTC)):
        yield "cargo and rustc, 1.85 or later (https://rustup.rs)"
    elif tuple(map(int, re.findall(r"\d+", _output(RUSTC, "--version"))[:2])) < (1, 85):
        yield "rustc 1.85 or later (https://rustup.rs)"


def _library(is_installed, temporary):
    """The header's folder and the static library: installed ones, or what cargo builds for this machine."""
    if is_installed:
        paths = (
            _output("pkg-config", f"--variable={name}", "const_oid_c")
            for name in ("includedir", "libdir")
        )
        # A space has a backslash.
        include, folder = (path.rstrip("\n").replace("\\ ", " ") for path in paths)
        return include, f"{folder}/libconst_oid_c.a"
    host = re.search(r"^host: (.+)$", _output(RUSTC, "-vV"), re.M)[1]
    command = ["cargo", "build", "--quiet", "--release", "--locked", "--offline", "--target", host]
    _output(*command, "--target-dir", temporary, "--manifest-path", CRATE)
    return HEADER.parent, f"{temporary}/{host}/release/libconst_oid_c.a"


def _compiled(settings):
    """The extension module."""
    is_installed = settings == {"library": "installed"}
    if settings and not is_installed:
        raise SystemExit(
            f"const-oid: the one setting that there is is library=installed, and these are {settings}"
        )
    if missing := list(_missing(is_installed)):
        raise SystemExit(f"const-oid: to be installed first: {'; '.join(missing)}")
    flags = ["-std=c11", "-O2", "-fPIC", "-fno-plt", "-fvisibility=hidden"]
    flags += shlex.split(os.environ.get("CFLAGS", ""))
    flags += ["-shared", "-Wl,--exclude-libs,ALL", "-s"]
    with tempfile.TemporaryDirectory() as temporary:
        include, library = _library(is_installed, temporary)
        made = pathlib.Path(temporary, "made")
        files = [f"-I{INCLUDE}", f"-I{include}", *sorted(HERE.glob("src/*.c")), library, "-o", made]
        _output(*COMPILER, *flags, *files, *shlex.split(os.environ.get("LDFLAGS", "")))
        return made.read_bytes()


def _metadata():
    """The file METADATA, of the project and its page."""
    lines = [
        "Metadata-Version: 2.4",
        f"Name: {PROJECT['name']}",
        f"Version: {PROJECT['version']}",
        f"Summary: {PROJECT['description']}",
        "Description-Content-Type: text/markdown",
        f"Requires-Python: {PROJECT['requires-python']}",
        f"License-Expression: {PROJECT['license']}",
        *(f"License-File: {name}" for name in LICENCES),
        *(f"Classifier: {name}" for name in PROJECT["classifiers"]),
    ]
    return "\n".join([*lines, "", ""]).encode() + (HERE / "README.md").read_bytes()


def _write_wheel(folder, files):
    """Writes a wheel of these files and those that say what it is, and returns its name."""
    information, wheel = f"{STEM}.dist-info", f"{STEM}-{TAG}.whl"
    head = "Wheel-Version: 1.0\nGenerator: const_oid\nRoot-Is-Purelib: false\n"
    files |= {f"{information}/licenses/{name}": (TOP / name).read_bytes() for name in LICENCES}
    files |= {
        f"{information}/METADATA": _metadata(),
        f"{information}/WHEEL": f"{head}Tag: {TAG}\n".encode(),
    }
    record = f"{information}/RECORD,,\n"
    for name, content in files.items():
        digest = base64.urlsafe_b64encode(hashlib.sha256(content).digest()).rstrip(b"=").decode()
        record += f"{name},sha256={digest},{len(content)}\n"
    with zipfile.ZipFile(pathlib.Path(folder) / wheel, "w") as archive:
        for name, content in (*files.items(), (f"{information}/RECORD", record)):
            entry = zipfile.ZipInfo(name)
            entry.external_attr = 0o100644 << 16
            archive.writestr(entry, content, zipfile.ZIP_DEFLATED)
    return wheel


def build_wheel(wheel_directory, config_settings=None, metadata_directory=None):
    """Writes the wheel into a folder, and returns its name."""
    files = {f"const_oid/{path.name}": path.read_bytes() for path in PACKAGE}
    files[f"const_oid/{EXTENSION}"] = _compiled(config_settings)
    return _write_wheel(wheel_directory, files)


def build_editable(wheel_directory, config_settings=None, metadata_directory=None):
    """Writes a wheel that leads to out/, where there are links to the sources, the extension module and the names."""
    package, extension = HERE / "out/const_oid", _compiled(config_settings)
    package.parent.mkdir(exist_ok=True)
    with open(package.parent / "lock", "wb") as lock:
        fcntl.lockf(lock, fcntl.LOCK_EX)  # one build at a time
        shutil.rmtree(package, ignore_errors=True)
        package.mkdir()
        for path in PACKAGE:
            (package / path.name).symlink_to(path)
        (package / EXTENSION).write_bytes(extension)
    return _write_wheel(wheel_directory, {"const_oid.pth": f"{package.parent}\n".encode()})


def build_sdist(sdist_directory, config_settings=None):
    """Writes the source archive into a folder, and returns its name."""
    file, files = f"{STEM}.tar.gz", {"PKG-INFO": _metadata()}
    for top, patterns in ((HERE, ARCHIVED), (TOP, ARCHIVED_OF_TOP)):
        for path in sorted(path for pattern in patterns for path in top.glob(pattern)):
            files[path.relative_to(top).as_posix()] = path.read_bytes()
    with gzip.GzipFile(f"{sdist_directory}/{file}", "wb", mtime=0) as out:
        with tarfile.open(mode="w", fileobj=out) as tar:
            for name, content in files.items():
                entry = tarfile.TarInfo(f"{STEM}/{name}")
                entry.size = len(content)
                tar.addfile(entry, io.BytesIO(content))
    return file
