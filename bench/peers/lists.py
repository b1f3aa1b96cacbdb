#!/usr/bin/python3
"""bench/peers/lists.py LIST: the names of an installed library or program, in lines, each with its arcs: of openssl,
openssl_list, cryptography, asn1crypto, pyasn1_modules, jdk (keytool's), slapd, schemas (of krb5-kdc-ldap, samba,
sudo-ldap and 389-ds-base), simplesamlphp, net_snmp (files of libsnmp-base) or mibs (of python3-pysnmp4-mibs). Of missing:
rows of all but Python's that neither table has, for rust/common_names.tsv, and how many."""

import collections
import contextlib
import gzip
import importlib
import pathlib
import pkgutil
import re
import subprocess
import sys
import tempfile

FILES = [
    pathlib.Path(__file__).parents[2] / f"rust/{name}.tsv" for name in ("names", "common_names")
]
# The rows of both tables, each a document, a constant, arcs and a name.
TABLES = [
    [line.split("\t") for line in file.read_text(encoding="utf-8").splitlines()] for file in FILES
]
# What MIB files of net-snmp take from SNMPv2-SMI, which no Debian package has.
SMI = """SNMPv2-SMI DEFINITIONS ::= BEGIN enterprises OBJECT IDENTIFIER ::= { iso 3 6 1 4 1 }
    snmpModules OBJECT IDENTIFIER ::= { iso 3 6 1 6 3 } END"""
# The first six whole, others without groups.
MIBS = """SNMPv2 IF IP TCP UDP HOST-RESOURCES ENTITY ENTITY-SENSOR BRIDGE Q-BRIDGE IF-INVERTED-STACK EtherLike
    IP-FORWARD RFC1213 SNMP-FRAMEWORK SNMP-USER-BASED-SM SNMP-VIEW-BASED-ACM BGP4 Printer RMON UPS""".split()
SCHEMAS = """doc/krb5-kdc-ldap/kerberos.schema.gz doc/samba/examples/LDAP/samba.schema doc/sudo-ldap/schema.OpenLDAP
    dirsrv/data/60krb5kdc.ldif dirsrv/schema/60autofs.ldif dirsrv/schema/60eduperson.ldif""".split()
JAVA = """class Names { public static void main(String[] of) { for (var oid : sun.security.util.KnownOIDs.values())
    System.out.println(oid.value() + "\\t" + oid.stdName() + "\\t" + String.join("\\t", oid.aliases())); } }"""


def said(*command):
    return subprocess.run(command, text=True, capture_output=True, check=True).stdout


def openssl():
    """The short and the long name of each number, as libcrypto has them for Python."""
    from _ssl import nid2obj

    for nid in range(1, 10_000):
        with contextlib.suppress(ValueError):
            _, short, long, arcs = nid2obj(nid)
            yield from ((name, arcs) for name in dict.fromkeys((short, long)) if arcs)


def openssl_list():
    """Names of algorithms beside arcs, those of openssl() or else the first, some with 1.2 in place of 2.16."""
    kinds = "digest cipher kdf mac signature asymcipher key-exchange kem".split()
    flags = (f"-{kind}-algorithms" for kind in kinds)
    text = said("openssl", "list", *flags, "-key-managers")
    text = re.sub(r"\b1\.2(?=\.840\.1\.101\.)", "2.16", text)
    known = set(openssl())
    for group in dict.fromkeys(re.findall(r"{ (\d[^}]*) }", text)):
        arcs = [item for item in group.split(", ") if item[0].isdigit()]
        for name in group.split(", ")[len(arcs) :]:
            yield name, next((one for one in arcs if (name, one) in known), arcs[0])


def jdk():
    with tempfile.NamedTemporaryFile("w", suffix=".java") as file:
        print(JAVA, file=file, flush=True)
        lines = said(
            "java", "--add-exports", "java.base/sun.security.util=ALL-UNNAMED", file.name
        ).splitlines()
    return [
        (name, arcs)
        for arcs, *names in map(lambda line: line.split("\t"), lines)
        for name in filter(None, names)
    ]


def in_schema(text):
    """Names with arcs in a schema of LDAP."""
    for arcs, names in re.findall(
        r"\(\s*([\d.]+)\s+NAME\s+(\([^)]*\)|'[^']*')", re.sub("(?m)^#.*", "", text)
    ):
        yield from ((name, arcs) for name in re.findall("'([^']+)'", names))


def slapd():
    """Names in schemas, but for Active Directory's, and in programs, but for experiments."""
    root = pathlib.Path("/")
    for file in [
        root / "usr/sbin/slapd",
        *root.glob("etc/ldap/schema/*.schema"),
        *root.glob("usr/lib/ldap/*.so"),
    ]:
        if file.name != "msuser.schema":
            found = in_schema(file.read_text(encoding="latin-1"))
            yield from (row for row in found if not row[1].startswith("1.3.6.1.4.1.4203.666."))


def schemas():
    for file in SCHEMAS:
        read = gzip.open if file.endswith(".gz") else open
        with read(f"/usr/share/{file}", "rt", encoding="latin-1") as text:
            yield from in_schema(text.read())


def simplesamlphp():
    text = pathlib.Path("/etc/simplesamlphp/attributemap/oid2name.php").read_text(encoding="utf-8")
    return [(name, arcs) for arcs, name in re.findall(r"'urn:oid:([\d.]+)'\s+=> '(\w+)'", text)]


def cryptography():
    from cryptography.hazmat._oid import _OID_NAMES

    return [(name, oid.dotted_string) for oid, name in _OID_NAMES.items()]


def modules(package):
    found = pkgutil.iter_modules(importlib.import_module(package).__path__, f"{package}.")
    return [importlib.import_module(module.name) for module in found if "._" not in module.name]


def asn1crypto():
    modules("asn1crypto")
    from asn1crypto.core import ObjectIdentifier

    return [
        (name, arcs)
        for kind in ObjectIdentifier.__subclasses__()
        for arcs, name in (kind._map or {}).items()
    ]


def pyasn1_modules():
    """Names of Python, in which an underscore stands for a hyphen."""
    from pyasn1.type.univ import ObjectIdentifier

    rows = (row for module in modules("pyasn1_modules") for row in vars(module).items())
    return [
        (name.replace("_", "-"), str(oid))
        for name, oid in rows
        if type(oid) is ObjectIdentifier and oid.isValue
    ]


def net_snmp():
    """The names that are there once."""
    with tempfile.NamedTemporaryFile("w") as file:
        print(SMI, file=file, flush=True)
        command = ["snmptranslate", "-M", "/usr/share/snmp/mibs", "-m", f"{file.name}:ALL", "-Tz"]
        rows = re.findall(r'"(.+)"\s+"(1\.3\.6\.1\.4.+)"', said(*command))
    times = collections.Counter(name for name, _ in rows)
    return [row for row in rows if times[row[0]] == 1]


def mibs():
    """The nodes of each MIB, of which the files are read as text, since pysnmp rejects some."""
    from pysnmp.smi import builder

    symbols = builder.MibBuilder().loadModules("SNMPv2-SMI").mibSymbols["SNMPv2-SMI"]
    nodes = [
        (getattr(node, "name", ()), name) for name, node in symbols.items() if name[0].islower()
    ]
    yield from (
        (name, ".".join(map(str, arcs)), "SNMPv2-SMI")
        for arcs, name in sorted(nodes)
        if len(arcs) > 1
    )
    folders = [
        pathlib.Path(importlib.import_module(name).__path__[0])
        for name in ("pysnmp_mibs", "pysnmp.smi.mibs")
    ]
    for index, mib in enumerate(MIBS):
        text = next(
            file.read_text(encoding="utf-8")
            for folder in folders
            for file in folder.glob(f"{mib}-MIB.py")
        )
        for name, arcs in re.findall(r"^(\w+) = \w+\(\(([\d, ]+)\)", text, re.M):
            is_group = re.search(r"Conformance$|Compliances?\d*$|(?<!prtAlert)Groups?\d*$", name)
            if index < 6 or not is_group:
                yield name, arcs.replace(", ", "."), f"{mib}-MIB"


def missing():
    """A name stands once."""
    names, counts = {name.lower() for *_, name in sum(TABLES, [])}, collections.Counter()
    others = {
        "MIBs": mibs,
        "OpenSSL": openssl,
        "openssl list": openssl_list,
        "slapd": slapd,
        "schemas": schemas,
    }
    for document, read in {
        **others,
        "SimpleSAMLphp": simplesamlphp,
        "net-snmp": net_snmp,
        "JDK": jdk,
    }.items():
        rows = []
        try:
            rows = [(*row, document)[:3] for row in read()]
        except (ImportError, FileNotFoundError) as error:
            print(f"lists.py: not read: {document} ({error})", file=sys.stderr)
        for name, arcs, document in rows:
            if name.lower() in names or max(map(int, arcs.split("."))) >= 2**32:
                continue
            names.add(name.lower())
            counts[document] += 1
            yield document, "", arcs, name
    print(f"lists.py: rows that neither table has: {dict(counts) or 'none'}", file=sys.stderr)


if __name__ == "__main__":
    for row in globals().get(sys.argv[-1], lambda: [[__doc__]])():
        print(*row, sep="\t")
