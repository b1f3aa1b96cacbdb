/* The extension module const_oid._native, for the stable ABI of Python 3.11. An identifier holds its contents octets,
 * which const_oid.h reads, writes and orders. Each interpreter has a module of its own, with the state. */
#include "native.h"

static const_oid_octets items_of(PyObject *bytes) {
    return (const_oid_octets){(const uint8_t *)PyBytes_AsString(bytes), (size_t)((PyVarObject *)bytes)->ob_size};
}

static const_oid_octets octets_of(PyObject *self) {
    return ((Identifier *)self)->items;
}

void identifier_dealloc(PyObject *self) {
    Identifier *identifier = (Identifier *)self;
    PyTypeObject *type = Py_TYPE(self);
    if (identifier->weak_references)
        PyObject_ClearWeakRefs(self);
    Py_DecRef(identifier->octets);
    if (identifier->arcs)
        Py_DecRef(identifier->arcs);
    ((freefunc)PyType_GetSlot(type, Py_tp_free))(self);
    Py_DecRef((PyObject *)type);
}

/* Whether a type is ObjectIdentifier itself, and no subclass. */
static int is_plain(PyTypeObject *type) {
    return (destructor)PyType_GetSlot(type, Py_tp_dealloc) == identifier_dealloc;
}

/* ObjectIdentifier, of which a type is a subclass, or which it is. NULL if it is another type. */
static PyTypeObject *base_of(PyTypeObject *type) {
    return base_by(type, identifier_dealloc);
}

/* An attribute. Python's cache of methods would keep each name that is not interned. */
PyObject *attribute(PyObject *object, const char *name) {
    OWNED *interned = object ? PyUnicode_InternFromString(name) : NULL;
    return interned ? PyObject_GetAttr(object, interned) : NULL;
}

/* What a function of the package returns, which the module of a class, or of an object's, holds: an import
 * would take the caller's __import__. It steals the arguments, a tuple. */
static PyObject *call_support(PyObject *self, const char *name, PyObject *arguments) {
    PyTypeObject *type = base_of(PyType_Check(self) ? (PyTypeObject *)self : Py_TYPE(self));
    if (!type)
        type = base_by(Py_TYPE(self), table_dealloc);
    OWNED *stolen = arguments, *support = stolen ? attribute(PyType_GetModule(type), "support") : NULL;
    OWNED *function = attribute(support, name);
    return function ? PyObject_CallObject(function, stolen) : NULL;
}

/* Raises the exception that such a function returns. It steals the arguments. */
static PyObject *raise_by_support(PyObject *self, const char *name, PyObject *arguments) {
    OWNED *error = call_support(self, name, arguments);
    if (error)
        PyErr_SetObject((PyObject *)Py_TYPE(error), error);
    return NULL;
}

/* Raises the OidError of a status, with what was given. */
static PyObject *raise_status(PyObject *self, const_oid_status status, PyObject *given) {
    return raise_by_support(self, "OidError", Py_BuildValue("IIO", status.code, status.detail, given));
}

/* The same of a wrong component of what was typed. */
PyObject *raise_component(PyObject *self, const_oid_status status, PyObject *given) {
    PyObject *arguments = Py_BuildValue("IIOn", status.code, status.detail, given, (Py_ssize_t)status.len);
    return raise_by_support(self, "OidError", arguments);
}

/* What is given may be borrowed of what garbage changes, which Python 3.11 finds while the tuple is made. */
PyObject *raise_wrong_type(PyObject *self, const char *wanted, PyObject *given) {
    return raise_by_support(self, "_wrong_type", Py_BuildValue("sN", wanted, Py_NewRef(given)));
}

/* A new object of a type, with valid octets, to which it steals a reference. */
static PyObject *allocate(PyTypeObject *type, PyObject *octets) {
    Identifier *self = octets ? (Identifier *)PyType_GenericAlloc(type, 0) : NULL;
    if (!self) {
        Py_DecRef(octets);
        return NULL;
    }
    self->octets = octets;
    self->items = items_of(octets);
    return (PyObject *)self;
}

/* The same by a call of a subclass with a plain identifier, so that its __init__ runs. It steals the octets, too. */
static PyObject *make(PyTypeObject *type, PyObject *octets) {
    if (is_plain(type))
        return allocate(type, octets);
    OWNED *plain = allocate(base_of(type), octets);
    return plain ? PyObject_CallFunctionObjArgs((PyObject *)type, plain, NULL) : NULL;
}

PyObject *identifier_from_items(PyObject *type, const_oid_octets items) {
    return make((PyTypeObject *)type, PyBytes_FromStringAndSize((const char *)items.octets, (Py_ssize_t)items.len));
}

/* The most octets of an arc. */
#define ARC_OCTETS 5

/* Where a call writes: `room`, or other memory. */
typedef struct {
    uint32_t room[CONST_OID_MAX_ARCS + CONST_OID_MAX_ARCS / 4];
    void *start;
    size_t len;
} Output;

/* Reserves memory for items of a size: 0, or -1 with a MemoryError. */
static int reserve(Output *out, size_t len, size_t size) {
    out->len = len;
    out->start = len <= sizeof out->room / size ? out->room : PyMem_Calloc(len, size);
    if (out->start)
        return 0;
    PyErr_NoMemory();
    return -1;
}

/* An output that is freed at the end of its block, so what follows its declaration is `reserve`. */
static inline void release(Output *out) {
    if (out->start != out->room)
        PyMem_Free(out->start);
}
#define OUTPUT __attribute__((cleanup(release))) Output

/* The octets that a call wrote, or its error. An arc past 32 bits, which it did not get, is wrong if none before is. */
static PyObject *finish(const Output *out, PyObject *self, const_oid_status status, int is_past, PyObject *given) {
    if (is_past && (!status.code || status.code == CONST_OID_EMPTY))
        status.code = CONST_OID_ARC_TOO_BIG;
    if (status.code)
        return raise_status(self, status, given);
    return PyBytes_FromStringAndSize(out->start, (Py_ssize_t)status.len);
}

/* Octets of a text are at most as many as its bytes. Python makes no UTF-8 of a surrogate. */
static PyObject *identifier_from_text(PyObject *type, PyObject *text) {
    Py_ssize_t len;
    const char *data = PyUnicode_AsUTF8AndSize(text, &len);
    if (!data && PyErr_ExceptionMatches(PyExc_UnicodeEncodeError)) {
        PyErr_Clear();
        return raise_status(type, (const_oid_status){.code = CONST_OID_NOT_UTF8}, text);
    }
    if (!data)
        return NULL;
    OUTPUT out;
    if (reserve(&out, (size_t)len, 1))
        return NULL;
    const_oid_status status = const_oid_from_text(data, (size_t)len, out.start, out.len);
    return allocate((PyTypeObject *)type, finish(&out, type, status, 0, text));
}

static PyObject *identifier_new(PyTypeObject *type, PyObject *arguments, PyObject *keywords) {
    static char *names[] = {"text", NULL};
    PyObject *given;
    int is_one = keywords ? PyArg_ParseTupleAndKeywords(arguments, keywords, "O:ObjectIdentifier", names, &given)
                          : PyArg_UnpackTuple(arguments, "ObjectIdentifier", 1, 1, &given);
    if (!is_one)
        return NULL;
    if (PyUnicode_Check(given))
        return identifier_from_text((PyObject *)type, given);
    if (!is_identifier(given))
        return raise_wrong_type((PyObject *)type, "text must be a str", given);
    if (Py_TYPE(given) == type && is_plain(type))
        return Py_NewRef(given);
    return allocate(type, Py_NewRef(((Identifier *)given)->octets));
}

static int is_octets(PyObject *given) {
    return PyBytes_Check(given) || PyByteArray_Check(given) || PyMemoryView_Check(given);
}

/* A copy of octets. The items of a memoryview may be wider, and are then none. */
static PyObject *octets_from(PyObject *type, PyObject *given) {
    Py_buffer view;
    if (PyBytes_CheckExact(given))
        return Py_NewRef(given);
    if (!is_octets(given))
        return raise_wrong_type(type, "octets must be bytes, bytearray or memoryview", given);
    if (PyObject_GetBuffer(given, &view, PyBUF_FULL_RO))
        return NULL;
    PyBuffer_Release(&view);
    if (view.itemsize == 1)
        return PyBytes_FromObject(given);
    return PyErr_Format(PyExc_TypeError, "octets must be items of 1 byte, not %zd: see memoryview.cast", view.itemsize);
}

static PyObject *identifier_from_bytes(PyObject *type, PyObject *given) {
    OWNED *octets = octets_from(type, given);
    if (!octets)
        return NULL;
    const_oid_octets items = items_of(octets);
    const_oid_status status = const_oid_check(items.octets, items.len);
    return status.code ? raise_status(type, status, octets) : make((PyTypeObject *)type, Py_NewRef(octets));
}

/* The most octets of an element that its error keeps, so that a loop over errors takes linear time. */
#define KEPT_OCTETS 128

/* Raises the error of the element that octets begin with. It keeps no view, which its caller may want to close. */
static PyObject *raise_element(PyObject *type, const_oid_octets items, const_oid_status status) {
    size_t len = items.len < KEPT_OCTETS ? items.len : KEPT_OCTETS;
    if (len > 2 && items.octets[1] < len - 2)
        len = 2 + items.octets[1]; /* a length of one octet */
    OWNED *kept = PyBytes_FromStringAndSize((const char *)items.octets, (Py_ssize_t)len);
    return kept ? raise_status(type, status, kept) : NULL;
}

/* The identifier of the element that octets, with these items, begin with. What follows comes too, or is an error. */
static inline PyObject *from_element(PyObject *type, PyObject *octets, const_oid_octets items, int is_whole) {
    const_oid_octets contents = {NULL, 0};
    const_oid_status status = const_oid_from_der(items.octets, items.len, &contents);
    if (is_whole && !status.code && status.len < items.len)
        status.code = CONST_OID_NO_ELEMENT;
    if (status.code)
        return is_whole ? raise_status(type, status, octets) : raise_element(type, items, status);
    PyObject *oid = identifier_from_items(type, contents);
    if (is_whole || !oid)
        return oid;
    return Py_BuildValue("NN", oid, PySequence_GetSlice(octets, (Py_ssize_t)status.len, PTRDIFF_MAX));
}

static inline PyObject *from_copy(PyObject *type, PyObject *given, int is_whole) {
    OWNED *octets = octets_from(type, given);
    return octets ? from_element(type, octets, items_of(octets), is_whole) : NULL;
}

static PyObject *identifier_from_der(PyObject *type, PyObject *given) {
    return from_copy(type, given, 1);
}

/* How many octets to copy of those that begin with an element: its own, and what an error keeps. */
static size_t copied_len(const uint8_t *octets, size_t most) {
    if (most <= KEPT_OCTETS)
        return most;
    size_t len = 0, count = octets[1] ^ 128u; /* of octets of a length above 127, or else more than there can be */
    for (size_t index = 2; count <= sizeof len && index < 2 + count; index++)
        len = len << 8 | octets[index];
    len += 2 + count;
    if (len < KEPT_OCTETS)
        return KEPT_OCTETS;
    return len < most ? len : most;
}

/* The rest of a memoryview of bytes in a row is one, so that a loop over elements copies their octets alone. Others may
 * write to its memory meanwhile, so what is checked is the copy. */
static PyObject *identifier_read_der(PyObject *type, PyObject *given) {
    Py_buffer view;
    if (!PyMemoryView_Check(given))
        return from_copy(type, given, 0);
    OWNED *row = PyMemoryView_GetContiguous(given, PyBUF_READ, 'C');
    if (!row || PyObject_GetBuffer(row, &view, PyBUF_FULL_RO))
        return NULL;
    OUTPUT copy;
    int is_row = view.ndim == 1 && view.itemsize == 1;
    int has_room = !reserve(&copy, is_row ? copied_len(view.buf, (size_t)view.len) : 0, 1);
    if (has_room)
        memcpy(copy.start, view.buf, copy.len);
    PyBuffer_Release(&view);
    if (!is_row)
        return from_copy(type, given, 0);
    return has_room ? from_element(type, row, (const_oid_octets){copy.start, copy.len}, 0) : NULL;
}

/* An integer, or the greatest of 64 bits in place of all that are greater. It is negative with an exception. */
static long long read_arc(PyObject *item) {
    int overflow;
    long long arc = PyLong_AsLongLongAndOverflow(item, &overflow);
    if (overflow > 0)
        return INT64_MAX;
    const char *text = overflow ? "an arc is negative" : "an arc is negative: %lld";
    if (arc < 0 && !PyErr_Occurred())
        PyErr_Format(PyExc_ValueError, text, arc);
    return arc;
}

/* Reads all items of a tuple. Returns how many come before the first that is past 32 bits, or -1 with an exception. */
static Py_ssize_t read_arcs(PyObject *items, Py_ssize_t count, uint32_t *arcs) {
    Py_ssize_t fitting = count;
    for (Py_ssize_t index = 0; index < count; index++) {
        long long arc = read_arc(PyTuple_GetItem(items, index));
        if (arc < 0)
            return -1;
        if (arc > UINT32_MAX && fitting == count)
            fitting = index;
        arcs[index] = (uint32_t)arc;
    }
    return fitting;
}

static PyObject *identifier_from_arcs(PyObject *type, PyObject *given) {
    if (PyUnicode_Check(given) || is_octets(given) || PyAnySet_Check(given) || PyDict_Check(given)) {
        return raise_wrong_type(type, "arcs must be an iterable of int", given);
    }
    OWNED *items = PySequence_Tuple(given);
    if (!items)
        return NULL;
    OUTPUT arcs;
    if (reserve(&arcs, (size_t)PyTuple_Size(items), sizeof(uint32_t)))
        return NULL;
    Py_ssize_t count = (Py_ssize_t)arcs.len, fitting = read_arcs(items, count, arcs.start);
    if (fitting < 0)
        return NULL;
    OUTPUT out;
    if (reserve(&out, ARC_OCTETS * (size_t)fitting, 1))
        return NULL;
    const_oid_status status = const_oid_from_arcs(arcs.start, (size_t)fitting, out.start, out.len);
    return make((PyTypeObject *)type, finish(&out, type, status, fitting < count, items));
}

static PyObject *tuple_of(const uint32_t *arcs, size_t count) {
    OWNED *made = PyTuple_New((Py_ssize_t)count);
    for (size_t index = 0; made && index < count; index++) {
        PyObject *arc = PyLong_FromUnsignedLong(arcs[index]);
        if (!arc || PyTuple_SetItem(made, (Py_ssize_t)index, arc))
            return NULL;
    }
    return made ? Py_NewRef(made) : NULL;
}

/* Octets have at most one arc more than there are octets. A finalizer may ask for the arcs while they are made. */
static PyObject *first_arcs(Identifier *identifier) {
    OUTPUT out;
    const_oid_octets octets = identifier->items;
    if (reserve(&out, octets.len + 1, sizeof(uint32_t)))
        return NULL;
    const_oid_status status = const_oid_arcs(octets.octets, octets.len, out.start, out.len);
    OWNED *arcs = tuple_of(out.start, status.len);
    if (arcs && !identifier->arcs)
        identifier->arcs = Py_NewRef(arcs);
    return arcs ? identifier->arcs : NULL;
}

/* The tuple that the identifier keeps; the reference is borrowed. */
static PyObject *arcs_of(PyObject *self) {
    PyObject *arcs = ((Identifier *)self)->arcs;
    return arcs ? arcs : first_arcs((Identifier *)self);
}

static PyObject *identifier_arcs(PyObject *self, void *Py_UNUSED(closure)) {
    PyObject *arcs = arcs_of(self);
    return arcs ? Py_NewRef(arcs) : NULL;
}

/* A tag, and a length of a size_t in at most one octet more, come before the octets. */
static PyObject *identifier_der(PyObject *self, void *Py_UNUSED(closure)) {
    OUTPUT out;
    const_oid_octets octets = octets_of(self);
    if (reserve(&out, octets.len + 2 + sizeof octets.len, 1))
        return NULL;
    return finish(&out, self, const_oid_to_der(octets.octets, octets.len, out.start, out.len), 0, self);
}

/* The octets of a parent are a prefix, of the length that a call without output needs. */
static PyObject *identifier_parent(PyObject *self, void *Py_UNUSED(closure)) {
    const_oid_octets octets = octets_of(self);
    const_oid_status status = const_oid_parent(octets.octets, octets.len, NULL, 0);
    if (status.code == CONST_OID_NONE)
        return Py_NewRef(Py_None);
    return make(Py_TYPE(self), PyBytes_FromStringAndSize((const char *)octets.octets, (Py_ssize_t)status.len));
}

static PyObject *identifier_child(PyObject *self, PyObject *item) {
    long long arc = read_arc(item);
    const_oid_octets octets = octets_of(self);
    if (arc < 0)
        return NULL;
    OUTPUT out;
    if (reserve(&out, octets.len + ARC_OCTETS, 1))
        return NULL;
    const_oid_status status = const_oid_push_arc(octets.octets, octets.len, (uint32_t)arc, out.start, out.len);
    return make(Py_TYPE(self), finish(&out, self, status, arc > UINT32_MAX, item));
}

/* A prefix of the octets of an identifier that is valid itself has a prefix of its arcs. */
static PyObject *identifier_starts_with(PyObject *self, PyObject *prefix) {
    if (!is_identifier(prefix))
        return raise_wrong_type(self, "prefix must be an ObjectIdentifier", prefix);
    const_oid_octets octets = octets_of(self), start = octets_of(prefix);
    return PyBool_FromLong(start.len <= octets.len && !memcmp(octets.octets, start.octets, start.len));
}

/* Text has at most four bytes for each octet. */
static PyObject *identifier_str(PyObject *self) {
    OUTPUT out;
    const_oid_octets octets = octets_of(self);
    if (reserve(&out, octets.len, 4))
        return NULL;
    const_oid_status status = const_oid_to_text(octets.octets, octets.len, out.start, 4 * out.len);
    return PyUnicode_FromStringAndSize(out.start, (Py_ssize_t)status.len);
}

static PyObject *identifier_repr(PyObject *self) {
    OWNED *name = PyType_GetName(Py_TYPE(self)), *text = identifier_str(self);
    return name && text ? PyUnicode_FromFormat("%U('%U')", name, text) : NULL;
}

static PyObject *identifier_format(PyObject *self, PyObject *specification) {
    if (!PyUnicode_Check(specification))
        return raise_wrong_type(self, "specification must be a str", specification);
    OWNED *text = PyObject_Str(self);
    return text ? PyObject_Format(text, specification) : NULL;
}

static PyObject *identifier_bytes(PyObject *self, PyObject *Py_UNUSED(none)) {
    return Py_NewRef(((Identifier *)self)->octets);
}

static Py_hash_t identifier_hash(PyObject *self) {
    return PyObject_Hash(((Identifier *)self)->octets);
}

static PyObject *identifier_compare(PyObject *self, PyObject *other, int operation) {
    if (Py_TYPE(self) != Py_TYPE(other) && !is_identifier(other))
        return Py_NewRef(Py_NotImplemented);
    if (operation == Py_EQ || operation == Py_NE)
        return PyBool_FromLong(is_same(self, other) == (operation == Py_EQ));
    int order = const_oid_by_arcs(&((Identifier *)self)->items, &((Identifier *)other)->items);
    int is_less = operation == Py_LT || operation == Py_LE, or_equal = operation == Py_LE || operation == Py_GE;
    return PyBool_FromLong(order ? (order < 0) == is_less : or_equal);
}

static Py_ssize_t identifier_len(PyObject *self) {
    Identifier *identifier = (Identifier *)self;
    const_oid_octets octets = identifier->items;
    if (!identifier->count)
        identifier->count = (Py_ssize_t)const_oid_len(octets.octets, octets.len).len;
    return identifier->count;
}

static int identifier_contains(PyObject *self, PyObject *item) {
    PyObject *arcs = arcs_of(self);
    return arcs ? PySequence_Contains(arcs, item) : -1;
}

static PyObject *identifier_subscript(PyObject *self, PyObject *key) {
    PyObject *arcs = arcs_of(self);
    return arcs ? PyObject_GetItem(arcs, key) : NULL;
}

/* PySequence_GetItem has added the length to a negative index. */
static PyObject *identifier_item(PyObject *self, Py_ssize_t index) {
    PyObject *arcs = arcs_of(self), *arc = arcs ? PyTuple_GetItem(arcs, index) : NULL;
    return arc ? Py_NewRef(arc) : NULL;
}

static PyObject *identifier_iter(PyObject *self) {
    PyObject *arcs = arcs_of(self);
    return arcs ? PyObject_GetIter(arcs) : NULL;
}

/* A bound, as tuple.index takes it. */
static int read_bound(PyObject *item, void *bound) {
    *(Py_ssize_t *)bound = PyNumber_AsSsize_t(item, NULL);
    return !PyErr_Occurred();
}

/* The call of a tuple would speak of a tuple, and its ValueError may be that of a comparison. */
static PyObject *identifier_index(PyObject *self, PyObject *arguments) {
    PyObject *arcs = arcs_of(self), *arc;
    Py_ssize_t index = 0, end = PTRDIFF_MAX;
    if (!arcs || !PyArg_ParseTuple(arguments, "O|O&O&:index", &arc, read_bound, &index, read_bound, &end))
        return NULL;
    for (PySlice_AdjustIndices(PyTuple_Size(arcs), &index, &end, 1); index < end; index++) {
        int is_equal = PyObject_RichCompareBool(PyTuple_GetItem(arcs, index), arc, Py_EQ);
        if (is_equal)
            return is_equal < 0 ? NULL : PyLong_FromSsize_t(index);
    }
    return raise_by_support(self, "_not_among", Py_BuildValue("(O)", arc));
}

static PyObject *identifier_count(PyObject *self, PyObject *arc) {
    PyObject *arcs = arcs_of(self);
    Py_ssize_t count = arcs ? PySequence_Count(arcs, arc) : -1;
    return count < 0 ? NULL : PyLong_FromSsize_t(count);
}

/* A copy has no memo. */
static PyObject *identifier_copied(PyObject *self, PyObject *memo) {
    return call_support(self, "_copied", memo ? Py_BuildValue("O(O)", self, memo) : Py_BuildValue("O()", self));
}

static PyObject *identifier_pydantic_schema(PyObject *type, PyObject *arguments) {
    return call_support(type, "_pydantic_schema", Py_BuildValue("OO", type, arguments));
}

static PyObject *identifier_pydantic_validators(PyObject *type, PyObject *arguments) {
    return call_support(type, "_pydantic_validators", Py_BuildValue("OO", type, arguments));
}

/* numpy takes an identifier as one value, and not as a sequence. */
static PyObject *identifier_array(PyObject *self, PyObject *arguments, PyObject *keywords) {
    static char *names[] = {"dtype", "copy", NULL};
    PyObject *dtype, *copy;
    if (!PyArg_ParseTupleAndKeywords(arguments, keywords, "|OO:__array__", names, &dtype, &copy))
        return NULL;
    return call_support(self, "_as_array", Py_BuildValue("(O)", self));
}

static PyObject *identifier_reduce(PyObject *self, PyObject *Py_UNUSED(none)) {
    if (!is_plain(Py_TYPE(self)))
        return call_support(self, "_reduced", Py_BuildValue("(O)", self));
    PyObject *restored = attribute(PyType_GetModule(Py_TYPE(self)), "restored");
    return Py_BuildValue("N(O)", restored, ((Identifier *)self)->octets);
}

static PyObject *error_text(PyObject *Py_UNUSED(module), PyObject *arguments) {
    char text[CONST_OID_MAX_ERROR_TEXT];
    long long code, detail;
    if (!PyArg_ParseTuple(arguments, "LL", &code, &detail))
        return NULL;
    if ((uint64_t)(code | detail) > UINT32_MAX)
        return PyErr_Format(PyExc_OverflowError, "a number has 32 bits");
    const_oid_status status = const_oid_error_text((uint32_t)code, (uint32_t)detail, text, sizeof text);
    if (status.code)
        return Py_NewRef(Py_None);
    return PyUnicode_FromStringAndSize(text, (Py_ssize_t)status.len);
}

static PyObject *wrong_component(PyObject *Py_UNUSED(module), PyObject *text) {
    char *bytes;
    Py_ssize_t len;
    if (PyBytes_AsStringAndSize(text, &bytes, &len))
        return NULL;
    const_oid_status status = const_oid_from_text(bytes, (size_t)len, NULL, 0);
    if (status.code == CONST_OID_OK || status.code == CONST_OID_OUTPUT_TOO_SHORT)
        return Py_NewRef(Py_None);
    return PyLong_FromSize_t(status.len);
}

static PyMethodDef identifier_methods[] = {
    {"from_bytes", identifier_from_bytes, METH_O | METH_CLASS,
        "from_bytes($type, octets, /)\n--\n\n"
        "Decodes contents octets: those after the tag and the length. An element, or the bytes of a text, may be read\n"
        "without an error as another identifier: from_der takes an element, and ObjectIdentifier a text.\n\n"
        ">>> ObjectIdentifier.from_bytes(b'\\x2a\\x86\\x48'), ObjectIdentifier.from_bytes(b'1.2')\n"
        "(ObjectIdentifier('1.2.840'), ObjectIdentifier('1.9.46.50'))"},
    {"from_der", identifier_from_der, METH_O | METH_CLASS,
        "from_der($type, octets, /)\n--\n\n"
        "Decodes a whole element of DER: the tag 6, the length and the contents octets, with nothing after them.\n\n"
        ">>> ObjectIdentifier.from_der(b'\\x06\\x03\\x2a\\x86\\x48')\nObjectIdentifier('1.2.840')"},
    {"read_der", identifier_read_der, METH_O | METH_CLASS,
        "read_der($type, octets, /)\n--\n\n"
        "Decodes the element that octets begin with, and returns the identifier and the octets after it. Those of a\n"
        "memoryview of bytes, contiguous, of one dimension, are another one and no copy. An error has the octets of\n"
        "the element, at most 128, so that a loop takes linear time.\n\n"
        ">>> ObjectIdentifier.read_der(b'\\x06\\x03\\x2a\\x86\\x48\\x05\\x00')\n"
        "(ObjectIdentifier('1.2.840'), b'\\x05\\x00')"},
    {"from_arcs", identifier_from_arcs, METH_O | METH_CLASS,
        "from_arcs($type, arcs, /)\n--\n\n"
        "Encodes arcs. One past 32 bits has the same error as in text, and a negative one is a ValueError. All arcs\n"
        "are read first, so those without an end take all memory.\n\n"
        ">>> ObjectIdentifier.from_arcs([1, 2, 840])\nObjectIdentifier('1.2.840')"},
    {"child", identifier_child, METH_O,
        "child($self, arc, /)\n--\n\n"
        "The child with one more arc, which is its last.\n\n"
        ">>> ObjectIdentifier('1.2').child(840)\nObjectIdentifier('1.2.840')"},
    {"starts_with", identifier_starts_with, METH_O,
        "starts_with($self, prefix, /)\n--\n\n"
        "Whether the arcs begin with those of a prefix: whether it is this identifier or an ancestor.\n\n"
        ">>> oid = ObjectIdentifier('1.2.840')\n"
        ">>> [oid.starts_with(ObjectIdentifier(text)) for text in ('1.2', '1.2.840', '1.28')]\n"
        "[True, True, False]"},
    {"index", identifier_index, METH_VARARGS,
        "index($self, arc, start=0, stop=sys.maxsize, /)\n--\n\n"
        "The first index of an arc, or a ValueError.\n\n>>> ObjectIdentifier('1.2.840.2').index(2)\n1"},
    {"count", identifier_count, METH_O,
        "count($self, arc, /)\n--\n\n"
        "How often an arc occurs.\n\n>>> ObjectIdentifier('1.2.840.2').count(2)\n2"},
    {"__bytes__", identifier_bytes, METH_NOARGS, "__bytes__($self, /)\n--\n\nThe contents octets."},
    {"__format__", identifier_format, METH_O, "__format__($self, specification, /)\n--\n\nFormats str(self)."},
    {"__copy__", identifier_copied, METH_NOARGS, "__copy__($self, /)\n--\n\nItself, unless of a subclass."},
    {"__deepcopy__", identifier_copied, METH_O, "__deepcopy__($self, memo, /)\n--\n\nItself, unless of a subclass."},
    {"__reduce__", identifier_reduce, METH_NOARGS, "__reduce__($self, /)\n--\n\nFor pickle, which checks the octets."},
    {"__array__", (PyCFunction)(void (*)(void))identifier_array, METH_VARARGS | METH_KEYWORDS,
        "__array__($self, dtype=None, copy=None)\n--\n\nAn array of numpy, without dimensions, of this object."},
    {"__get_pydantic_core_schema__", identifier_pydantic_schema, METH_VARARGS | METH_CLASS, "For pydantic 2."},
    {"__get_validators__", identifier_pydantic_validators, METH_VARARGS | METH_CLASS, "For pydantic 1."},
    {0},
};

static PyGetSetDef identifier_properties[] = {
    {"arcs", identifier_arcs, NULL, "All arcs, as a tuple.\n\n>>> ObjectIdentifier('2.999').arcs\n(2, 999)", NULL},
    {"der", identifier_der, NULL,
        "The element of DER: the tag 6, the length and the contents octets.\n\n"
        ">>> ObjectIdentifier('1.2.840').der\nb'\\x06\\x03*\\x86H'",
        NULL},
    {"parent", identifier_parent, NULL,
        "The parent: all arcs except the last. None if there are only two.\n\n"
        ">>> ObjectIdentifier('1.2.840').parent\nObjectIdentifier('1.2')",
        NULL},
    {0},
};

static PyMemberDef identifier_members[] = {
    {"__weaklistoffset__", T_PYSSIZET, offsetof(Identifier, weak_references), READONLY, NULL},
    {0},
};

static PyType_Slot identifier_slots[] = {
    {Py_tp_doc,
        "ObjectIdentifier(text)\n--\n\nAn object identifier: at least two arcs of 32 bits.\n\n"
        "The constructor parses dotted text of any length, or returns an identifier that it is given.\n\n"
        ">>> oid = ObjectIdentifier('2.999.3')\n\n"
        "It is an immutable sequence of its arcs (collections.abc.Sequence).\n\n"
        ">>> len(oid), oid[1], oid[-2:], list(oid), 999 in oid\n(3, 999, (999, 3), [2, 999, 3], True)\n\n"
        "It is hashable, and ordered by its arcs, as in SNMP. No tuple or text equals it.\n\n"
        ">>> sorted(map(ObjectIdentifier, ['1.10', '1.2.3', '1.2']))\n"
        "[ObjectIdentifier('1.2'), ObjectIdentifier('1.2.3'), ObjectIdentifier('1.10')]\n"
        ">>> match oid:\n...     case ObjectIdentifier((2, 999, *rest)):\n...         print(rest)\n[3]\n\n"
        "Patterns have arcs, and `in` seeks one: `case ObjectIdentifier('2.999.3')` never matches.\n\n"
        "What makes an identifier of a subclass (from_bytes, parent, a copy ..) calls it with an ObjectIdentifier, so "
        "its\n__init__ runs. Copies and pickles then also get the attributes.\n\n"
        ">>> class Named(ObjectIdentifier):\n"
        "...     def __init__(self, text):\n"
        "...         self.name = names.name_of(ObjectIdentifier(text))\n"
        ">>> Named('2.5.4').child(3).name\n'cn'"},
    {Py_tp_new, (void *)identifier_new},
    {Py_tp_dealloc, (void *)identifier_dealloc},
    {Py_tp_str, (void *)identifier_str},
    {Py_tp_repr, (void *)identifier_repr},
    {Py_tp_hash, (void *)identifier_hash},
    {Py_tp_richcompare, (void *)identifier_compare},
    {Py_tp_iter, (void *)identifier_iter},
    {Py_sq_length, (void *)identifier_len},
    {Py_sq_item, (void *)identifier_item},
    {Py_sq_contains, (void *)identifier_contains},
    {Py_mp_subscript, (void *)identifier_subscript},
    {Py_tp_methods, identifier_methods},
    {Py_tp_getset, identifier_properties},
    {Py_tp_members, identifier_members},
    {0},
};

/* Patterns take it for a sequence by a flag, which headers of the stable ABI do not name. */
static PyType_Spec identifier_spec = {
    "const_oid.ObjectIdentifier",
    sizeof(Identifier),
    0,
    Py_TPFLAGS_DEFAULT | Py_TPFLAGS_BASETYPE | Py_TPFLAGS_IMMUTABLETYPE | (1UL << 5 /* Py_TPFLAGS_SEQUENCE */),
    identifier_slots,
};

/* The library may be an installed one, of another version than its header. */
static int module_exec(PyObject *module) {
    unsigned long version = const_oid_version();
    if (version / 65536 != CONST_OID_VERSION_MAJOR) {
        PyErr_Format(PyExc_ImportError, "the library const_oid_c has version %lu, not %d", version / 65536,
            CONST_OID_VERSION_MAJOR);
        return -1;
    }
    OWNED *text = PyUnicode_FromFormat("%lu.%lu.%lu", version / 65536, version / 256 % 256, version % 256);
    OWNED *type = PyType_FromModuleAndSpec(module, &identifier_spec, NULL);
    /* Nobody can set an attribute of the class, which has its last ones here. By ndim, pandas takes it as one value. */
    OWNED *last = Py_BuildValue("{s(s)si}", "__match_args__", "arcs", "ndim", 0);
    OWNED *attributes = type ? PyObject_GenericGetDict(type, NULL) : NULL;
    if (!text || !last || !attributes || PyDict_Update(attributes, last) || add_tables(module))
        return -1;
    if (add_names(module, type) || PyModule_AddObjectRef(module, "__version__", text))
        return -1;
    return PyModule_AddType(module, (PyTypeObject *)type);
}

/* Its state is the class of iterators of maps. */
static int module_traverse(PyObject *module, visitproc visit, void *arg) {
    Py_VISIT(*(PyObject **)PyModule_GetState(module));
    return 0;
}

static int module_clear(PyObject *module) {
    PyObject **walk = PyModule_GetState(module), *before = *walk;
    *walk = NULL;
    Py_DecRef(before);
    return 0;
}

static void module_free(void *module) {
    module_clear(module);
}

static PyObject *restored(PyObject *module, PyObject *octets) {
    OWNED *type = PyObject_GetAttrString(module, "ObjectIdentifier");
    if (!type)
        return NULL;
    if (PyType_Check(type) && base_of((PyTypeObject *)type))
        return identifier_from_bytes(type, octets);
    return PyErr_Format(PyExc_TypeError, "%R is no class of identifiers", type);
}

static PyMethodDef module_methods[] = {
    {"error_text", error_text, METH_VARARGS, "The text of a code and its detail, or None."},
    {"wrong_component", wrong_component, METH_O, "The index of the first wrong component of a text in UTF-8, or None."},
    {"restored", restored, METH_O, "The identifier of a pickle, which has its octets."},
    {0},
};

/* Since 3.12 a module says by a slot that it works in interpreters with locks of their own. 3.11 does not know it. */
static PyModuleDef_Slot module_slots[] = {
    {3 /* Py_mod_multiple_interpreters */, (void *)2 /* Py_MOD_PER_INTERPRETER_GIL_SUPPORTED */},
    {Py_mod_exec, (void *)module_exec},
    {0},
};

/* PyModuleDef_Init fills its head: that of a header is for its own Python, so each would make another module. */
static struct PyModuleDef module = {
    .m_name = "_native",
    .m_doc = "Identifiers over const_oid_c.",
    .m_methods = module_methods,
    .m_size = sizeof(PyObject *),
    .m_traverse = module_traverse,
    .m_clear = module_clear,
    .m_free = module_free,
};

PyMODINIT_FUNC PyInit__native(void) {
    module.m_slots = Py_Version < 0x030C0000 ? module_slots + 1 : module_slots;
    return PyModuleDef_Init(&module);
}
