/* What the files have in common: identifiers, references and errors. */
#ifndef NATIVE_H
#define NATIVE_H
#define Py_LIMITED_API 0x030B0000
#include <Python.h>
#include <const_oid.h>
#include <stddef.h>
#include <string.h>
#include <structmember.h>

/* Functions of the Python that runs count references: macros, as # in formats, are for the Python of their header. */
#undef Py_NewRef

/* A reference that is given up at the end of its block, as GCC and clang do it. */
static inline void give_up(PyObject **reference) {
    Py_DecRef(*reference);
}
#define OWNED __attribute__((cleanup(give_up))) PyObject

typedef struct {
    PyObject ob_base;
    const_oid_octets items; /* those of `octets` */
    PyObject *octets;       /* bytes that const_oid_check accepts */
    PyObject *arcs;         /* a tuple, or NULL before its first use */
    Py_ssize_t count;       /* how many arcs there are, or 0 before its first use */
    PyObject *weak_references;
} Identifier;

/* The class with a finalizer, of which a type is a subclass, or which it is. NULL if it is another type. */
static inline PyTypeObject *base_by(PyTypeObject *type, destructor dealloc) {
    while (type && (destructor)PyType_GetSlot(type, Py_tp_dealloc) != dealloc) {
        type = (PyTypeObject *)PyType_GetSlot(type, Py_tp_base);
    }
    return type;
}

void identifier_dealloc(PyObject *self);
PyObject *identifier_from_items(PyObject *type, const_oid_octets items);
PyObject *raise_component(PyObject *self, const_oid_status status, PyObject *given);

static inline int is_identifier(PyObject *object) {
    return base_by(Py_TYPE(object), identifier_dealloc) != NULL;
}

/* Equal identifiers have equal octets. */
static inline int is_same(PyObject *left, PyObject *right) {
    const const_oid_octets *one = &((Identifier *)left)->items, *other = &((Identifier *)right)->items;
    return left == right || (one->len == other->len && !memcmp(one->octets, other->octets, one->len));
}

PyObject *attribute(PyObject *object, const char *name);
PyObject *raise_wrong_type(PyObject *self, const char *wanted, PyObject *given);

/* Add the classes of maps and their iterators, and the functions of names, to the module. */
int add_tables(PyObject *module);
int add_names(PyObject *module, PyObject *type);
void table_dealloc(PyObject *self);

#endif
