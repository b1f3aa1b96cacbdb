"""Calls from Python. jpype calls Java."""

import sys

if sys.argv[1] == "pyasn1":
    from pyasn1.codec.der import decoder, encoder
    from pyasn1.type.univ import ObjectIdentifier
else:
    from jpype import JArray, JByte, JPackage, startJVM

    startJVM(classpath=["/usr/share/java/bcprov.jar", "/usr/share/java/org.jpype.jar"])
    jgss, asn1 = JPackage("org").ietf.jgss, JPackage("org").bouncycastle.asn1
octets_of, text_of = {
    "pyasn1": (
        lambda text: encoder.encode(ObjectIdentifier(text)),
        lambda der: [oid for oid, rest in [decoder.decode(der, ObjectIdentifier())] if not rest][0],
    ),
    "JDK": (
        lambda text: jgss.Oid(text).getDER(),
        lambda der: jgss.Oid(JArray(JByte)(der)).toString(),
    ),
    "BouncyCastle": (
        lambda text: asn1.ASN1ObjectIdentifier(text).getEncoded("DER"),
        lambda der: asn1.ASN1Primitive.fromByteArray(der).getId(),
    ),
}[sys.argv[1]]
for line in sys.stdin:
    data = bytes.fromhex(line)
    try:
        is_text = data[:1] in b" +-0123456789"
        print(
            bytes(octets_of(data.decode()))[2:].hex()
            if is_text
            else str(text_of(data)).encode().hex()
        )
    except Exception:
        print("rejected")
