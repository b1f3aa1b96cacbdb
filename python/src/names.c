/* What const_oid.names calls, bound to ObjectIdentifier. The tables of this header are static: no other file has it. */
#include "native.h"
#include <const_oid_common_names.h>

/* The bytes of a text, also of a surrogate, which no name has. */
static PyObject *bytes_of(PyObject *text, const char *argument) {
    if (PyUnicode_Check(text))
        return PyUnicode_AsEncodedString(text, "utf-8", "surrogatepass");
    OWNED *type = PyType_GetName(Py_TYPE(text));
    return type ? PyErr_Format(PyExc_TypeError, "%s must be a str, not %U", argument, type) : NULL;
}

/* The octets of an identifier, or none with an exception. */
static const_oid_octets items_of(PyObject *type, PyObject *oid) {
    if (is_identifier(oid))
        return ((Identifier *)oid)->items;
    raise_wrong_type(type, "oid must be an ObjectIdentifier", oid);
    return (const_oid_octets){NULL, 0};
}

static PyObject *by_name(PyObject *type, PyObject *name) {
    OWNED *bytes = bytes_of(name, "name");
    if (!bytes)
        return NULL;
    const_oid_octets found = const_oid_from_part(PyBytes_AsString(bytes), (size_t)PyBytes_Size(bytes));
    return found.len ? identifier_from_items(type, found) : Py_NewRef(Py_None);
}

static PyObject *name_of(PyObject *type, PyObject *oid) {
    const_oid_octets octets = items_of(type, oid);
    return octets.len ? Py_BuildValue("s", const_oid_to_name(octets.octets, octets.len)) : NULL;
}

/* Adds the name of an entry of the octets, if it is not there. Returns whether there may be more, and no error. */
static int add_name(PyObject *names, const_oid_octets octets, const_oid_octets found, const char *text) {
    if (PyErr_Occurred() || found.len != octets.len || memcmp(found.octets, octets.octets, octets.len))
        return 0;
    OWNED *name = PyUnicode_FromString(text);
    int is_there = name ? PySequence_Contains(names, name) : -1;
    return is_there > 0 || (is_there == 0 && !PyList_Append(names, name));
}

/* Entries of one identifier are neighbours in each table. */
static PyObject *names_of(PyObject *type, PyObject *oid) {
    const_oid_octets octets = items_of(type, oid);
    OWNED *names = octets.len ? PyList_New(0) : NULL; /* or an error, after which nothing is added */
    size_t at = const_oid_name_of(octets.octets, octets.len);
    while (at < CONST_OID_NAMES_COUNT && add_name(names, octets, const_oid_name_octets[at], const_oid_names[at]))
        at++;
    at = const_oid_common_name_of(octets.octets, octets.len);
    while (at < CONST_OID_COMMON_NAMES_COUNT
        && add_name(names, octets, const_oid_common_octets(at), const_oid_common_name(at)))
        at++;
    return PyErr_Occurred() ? NULL : PyList_AsTuple(names);
}

/* Raises the error of a typed text, with what comes after its prefix. Python makes no UTF-8 of a surrogate, so the
 * wrong component is that of a text without any. */
static PyObject *raise_typed(PyObject *type, const_oid_status status, PyObject *text, const char *typed, size_t len) {
    const_oid_range bare;
    size_t bare_len = const_oid_bare_text(typed, len, &bare).len;
    OWNED *given = PyUnicode_DecodeUTF8(typed + bare.start, (Py_ssize_t)bare_len, "surrogatepass");
    OWNED *replaced = given ? PyUnicode_AsEncodedString(text, "utf-8", "replace") : NULL;
    if (!replaced)
        return NULL;
    status.len = const_oid_parse(PyBytes_AsString(replaced), (size_t)PyBytes_Size(replaced), NULL, 0).len;
    return raise_component(type, status, given);
}

static PyObject *parse(PyObject *type, PyObject *text) {
    OWNED *bytes = bytes_of(text, "text");
    if (!bytes)
        return NULL;
    const char *typed = PyBytes_AsString(bytes);
    size_t len = (size_t)PyBytes_Size(bytes);
    const_oid_status status = const_oid_parse(typed, len, NULL, 0);
    if (status.code != CONST_OID_OUTPUT_TOO_SHORT)
        return raise_typed(type, status, text, typed, len);
    OWNED *octets = PyBytes_FromStringAndSize(NULL, (Py_ssize_t)status.len);
    if (!octets)
        return NULL;
    uint8_t *out = (uint8_t *)PyBytes_AsString(octets);
    const_oid_octets items = {out, const_oid_parse(typed, len, out, status.len).len};
    return identifier_from_items(type, items);
}

/* Arcs have at most four bytes of text for each octet. With a name and a zero, this may be past 32 bits. */
static PyObject *display(PyObject *type, PyObject *oid) {
    const_oid_octets octets = items_of(type, oid);
    OWNED *room = octets.len ? PyBytes_FromStringAndSize(NULL, (Py_ssize_t)(4 * octets.len + UINT8_MAX + 1)) : NULL;
    if (!room)
        return NULL;
    char *text = PyBytes_AsString(room);
    const_oid_status status = const_oid_display(octets.octets, octets.len, text, (size_t)PyBytes_Size(room));
    return status.code ? PyErr_NoMemory() : PyUnicode_FromStringAndSize(text, (Py_ssize_t)status.len);
}

static PyMethodDef functions[] = {
    {"by_name", by_name, METH_O, NULL},
    {"display", display, METH_O, NULL},
    {"name_of", name_of, METH_O, NULL},
    {"names_of", names_of, METH_O, NULL},
    {"parse", parse, METH_O, NULL},
    {0},
};

int add_names(PyObject *module, PyObject *type) {
    for (PyMethodDef *function = functions; function->ml_name; function++) {
        OWNED *bound = PyCFunction_NewEx(function, type, NULL);
        if (!bound || PyModule_AddObjectRef(module, function->ml_name, bound))
            return -1;
    }
    return 0;
}
