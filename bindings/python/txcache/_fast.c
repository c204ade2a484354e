/* The hot calls of a site, for `_fast.py`: what `_versions.py` asks by ctypes, over the same exports of libtxc_c.so.
 *
 * The limited API of Python 3.9, so that one object serves each later Python. Each call keeps the interpreter's lock, as those of `_versions.py`
 * do, so that it is alone in the library. */
#define PY_SSIZE_T_CLEAN
#define Py_LIMITED_API 0x03090000
#include <Python.h>
#include <structmember.h>

#include <dlfcn.h>

#include "txc.h"

#define FORM 1            /* rises with each change of what Python calls here: `_fast.py` has it too */
#define FIRST_ROOM 4096   /* bytes of the buffer for values, which becomes as long as the longest that was a hit */
#define DIGEST_SIZE 16
#define TABLES 16          /* the version of a place is a row of one of so many tables, as `_versions.py` touches it */
#define LENGTH(them) (sizeof(them) / sizeof *(them))

/* A call of the library, as `Site` keeps it. */
typedef struct {
    const char *name;
    size_t at;
} export;

/* The key of a call. `args` are the arguments that it was made of, if they stand for themselves; else None. */
typedef struct {
    PyObject_HEAD
    PyObject *digest;
    PyObject *args;
    unsigned char level;
    txc_key key;
} Key;

typedef struct {
    PyObject_HEAD
    PyObject *owner;      /* keeps the handle's memory */
    PyObject *refused;    /* makes an exception of a call's name and what it returned */
    PyObject *key_type;
    void *library;
    txc_site *site;
    uint8_t *buffer;
    size_t room;
    uint32_t (*begin)(txc_site *, uint64_t, uint64_t, uint32_t, txc_txn *);
    uint32_t (*member_at)(txc_site *, txc_txn, size_t, uint32_t *, uint64_t *);
    uint32_t (*abort)(txc_site *, txc_txn);
    uint32_t (*call)(txc_site *, txc_txn, const txc_key *, uint8_t *, size_t, size_t *);
    uint32_t (*answer)(txc_site *, txc_txn, uint8_t *, size_t, size_t *);
    uint32_t (*commit)(txc_site *, txc_txn, txc_receipt *);
    uint32_t (*read_stamp)(txc_site *, txc_txn, uint32_t *);
    uint32_t (*query_rows)(txc_site *, txc_txn, const txc_query *, size_t *);
    uint32_t (*finish)(txc_site *, txc_txn, const uint8_t *, size_t, uint8_t *, size_t, size_t *);
    uint32_t (*give_up)(txc_site *, txc_txn);
} Site;

static const export EXPORTS[] = {
    {"txc_begin", offsetof(Site, begin)}, {"txc_member_at", offsetof(Site, member_at)}, {"txc_abort", offsetof(Site, abort)},
    {"txc_call", offsetof(Site, call)}, {"txc_answer", offsetof(Site, answer)}, {"txc_commit", offsetof(Site, commit)},
    {"txc_read_stamp", offsetof(Site, read_stamp)}, {"txc_query_rows", offsetof(Site, query_rows)}, {"txc_finish", offsetof(Site, finish)},
    {"txc_give_up", offsetof(Site, give_up)},
};

/* Gives back the memory of an object, and its type's reference. */
static void free_object(PyObject *it)
{
    PyTypeObject *type = Py_TYPE(it);
    freefunc release = (freefunc)PyType_GetSlot(type, Py_tp_free);
    release(it);
    Py_DECREF(type);
}

/* ---- arguments */

static int has_count(PyObject *args, Py_ssize_t count, const char *name)
{
    if (PyTuple_Size(args) == count)
        return 1;
    PyErr_Format(PyExc_TypeError, "%s takes %zd arguments, and was given %zd", name, count, PyTuple_Size(args));
    return 0;
}

/* Reads a number of at most `most` from a tuple. If it is none, returns 0 with an exception. */
static int read_number(PyObject *args, Py_ssize_t at, uint64_t most, uint64_t *number)
{
    PyObject *it = PyTuple_GetItem(args, at);
    if (it == NULL)
        return 0;
    *number = PyLong_AsUnsignedLongLong(it);
    if (*number == (uint64_t)-1 && PyErr_Occurred())
        return 0;
    if (*number <= most)
        return 1;
    PyErr_Format(PyExc_OverflowError, "%llu is more than %llu", (unsigned long long)*number, (unsigned long long)most);
    return 0;
}

/* ---- keys */

static PyObject *key_new(PyTypeObject *type, PyObject *args, PyObject *named)
{
    uint64_t level;
    char *bytes;
    Py_ssize_t size;
    (void)named;
    if (!has_count(args, 3, "Key") || !read_number(args, 0, TXC_LAST_FUNCTION, &level))
        return NULL;
    PyObject *digest = PyTuple_GetItem(args, 1);
    if (PyBytes_AsStringAndSize(digest, &bytes, &size) < 0)
        return NULL;
    if (size != DIGEST_SIZE) {
        PyErr_Format(PyExc_ValueError, "a digest has %d bytes, and this one %zd", DIGEST_SIZE, size);
        return NULL;
    }
    PyObject *of = PyTuple_GetItem(args, 2);
    if (of != Py_None && !PyTuple_Check(of)) {
        PyErr_SetString(PyExc_TypeError, "the arguments of a call are a tuple, or None");
        return NULL;
    }
    allocfunc make = (allocfunc)PyType_GetSlot(type, Py_tp_alloc);
    Key *self = (Key *)make(type, 0);
    if (self == NULL)
        return NULL;
    Py_INCREF(digest);
    self->digest = digest;
    Py_INCREF(of);
    self->args = of;
    self->level = (unsigned char)level;
    self->key.function = (uint8_t)level;
    self->key.count = TXC_MAX_ARGS;
    memcpy(self->key.args, bytes, DIGEST_SIZE);
    return (PyObject *)self;
}

static void key_free(PyObject *it)
{
    Key *self = (Key *)it;
    Py_XDECREF(self->digest);
    Py_XDECREF(self->args);
    free_object(it);
}

static PyMemberDef KEY_MEMBERS[] = {
    {"digest", T_OBJECT, offsetof(Key, digest), READONLY, NULL},
    {"args", T_OBJECT, offsetof(Key, args), READONLY, NULL},
    {"level", T_UBYTE, offsetof(Key, level), READONLY, NULL},
    {NULL, 0, 0, 0, NULL},
};

static PyType_Slot KEY_SLOTS[] = {
    {Py_tp_new, key_new}, {Py_tp_dealloc, key_free}, {Py_tp_members, KEY_MEMBERS},
    {Py_tp_doc, "Key(level, digest, args): a call, as it is asked for; of one whose arguments stand for themselves these."}, {0, NULL},
};

static PyType_Spec KEY_SPEC = {"txcache._fast_c.Key", sizeof(Key), 0, Py_TPFLAGS_DEFAULT, KEY_SLOTS};

/* Returns whether two tuples, which are equal, have the same types, place by place. */
static int are_of_one_type(PyObject *one, PyObject *other)
{
    for (Py_ssize_t at = PyTuple_Size(one); at-- > 0;)
        if (Py_TYPE(PyTuple_GetItem(one, at)) != Py_TYPE(PyTuple_GetItem(other, at)))
            return 0;
    return 1;
}

/* Returns the key of these arguments, each of the same type, borrowed from the dictionary of a function. NULL if there is none, with an
 * exception if something failed. */
static Key *known_key(Site *self, PyObject *known, PyObject *args)
{
    PyObject *found = PyDict_GetItemWithError(known, args);
    if (found == NULL) {
        if (PyErr_ExceptionMatches(PyExc_TypeError))
            PyErr_Clear(); /* an argument without a hash is no plain data: the encoder says so */
        return NULL;
    }
    if ((PyObject *)Py_TYPE(found) != self->key_type) {
        PyErr_SetString(PyExc_TypeError, "what is known of a function's calls are keys");
        return NULL;
    }
    Key *key = (Key *)found;
    return key->args != Py_None && are_of_one_type(key->args, args) ? key : NULL;
}

/* ---- sites */

/* Fails with what the package raises for what a call returned. */
static PyObject *refuse(Site *self, const char *call, uint32_t number)
{
    PyObject *error = PyObject_CallFunction(self->refused, "si", call, (int)number);
    if (error != NULL) {
        PyErr_SetObject((PyObject *)Py_TYPE(error), error);
        Py_DECREF(error);
    }
    return NULL;
}

/* begin(now, staleness, at_least): begins a page at the pins of these bounds, and returns its number; None if there is no such pin, and then
 * no page is begun. */
static PyObject *site_begin(PyObject *it, PyObject *args)
{
    Site *self = (Site *)it;
    uint64_t now, staleness, at_least, moment;
    uint32_t stamp;
    txc_txn txn;
    if (!has_count(args, 3, "begin") || !read_number(args, 0, UINT64_MAX, &now) || !read_number(args, 1, UINT64_MAX, &staleness)
        || !read_number(args, 2, UINT32_MAX, &at_least))
        return NULL;
    uint32_t number = self->begin(self->site, now, staleness, (uint32_t)at_least, &txn);
    if (number != TXC_DONE)
        return refuse(self, "txc_begin", number);
    number = self->member_at(self->site, txn, 0, &stamp, &moment);
    PyObject *begun = number == TXC_DONE ? PyLong_FromUnsignedLongLong(txn) : NULL;
    if (begun != NULL)
        return begun;
    self->abort(self->site, txn);
    if (PyErr_Occurred())
        return NULL;
    if (number != TXC_MISS)
        return refuse(self, "txc_member_at", number);
    Py_RETURN_NONE;
}

/* Has the value that was too long for the buffer be told again, with a longer one. */
static uint32_t tell_once_more(Site *self, txc_txn txn, size_t *size)
{
    const size_t room = 2 * *size < TXC_MAX_VALUE_LEN ? 2 * *size : TXC_MAX_VALUE_LEN;
    uint8_t *buffer = PyMem_Realloc(self->buffer, room);
    if (buffer == NULL)
        return TXC_NO_MEMORY;
    self->buffer = buffer;
    self->room = room;
    return self->answer(self->site, txn, buffer, room, size);
}

/* Asks for the value of a call. Returns what the library returned; of TXC_DONE and TXC_ANSWERED `size` bytes are in the buffer. */
static uint32_t ask(Site *self, txc_txn txn, const txc_key *key, size_t *size)
{
    const uint32_t number = self->call(self->site, txn, key, self->buffer, self->room, size);
    return number == TXC_NO_ROOM ? tell_once_more(self, txn, size) : number;
}

static PyObject *value_of(const Site *self, size_t size)
{
    return PyBytes_FromStringAndSize((const char *)self->buffer, (Py_ssize_t)size);
}

/* call(txn, key): returns the value of a call; None if its function is to be computed. */
static PyObject *site_call(PyObject *it, PyObject *args)
{
    Site *self = (Site *)it;
    uint64_t txn;
    size_t size;
    if (!has_count(args, 2, "call") || !read_number(args, 0, UINT64_MAX, &txn))
        return NULL;
    Key *key = (Key *)PyTuple_GetItem(args, 1);
    if ((PyObject *)Py_TYPE((PyObject *)key) != self->key_type) {
        PyErr_SetString(PyExc_TypeError, "a call is asked for by its key");
        return NULL;
    }
    const uint32_t number = ask(self, txn, &key->key, &size);
    if (number == TXC_DONE || number == TXC_ANSWERED)
        return value_of(self, size);
    if (number != TXC_COMPUTE)
        return refuse(self, "txc_call", number);
    Py_RETURN_NONE;
}

/* hit(txn, known, args): returns the value of an outermost call of a function whose keys are known, if it is cached; else None, and no call
 * is open. */
static PyObject *site_hit(PyObject *it, PyObject *args)
{
    Site *self = (Site *)it;
    uint64_t txn;
    size_t size;
    if (!has_count(args, 3, "hit") || !read_number(args, 0, UINT64_MAX, &txn))
        return NULL;
    PyObject *known = PyTuple_GetItem(args, 1), *given = PyTuple_GetItem(args, 2);
    if (!PyDict_Check(known) || !PyTuple_Check(given)) {
        PyErr_SetString(PyExc_TypeError, "hit takes a number, a dictionary and a tuple");
        return NULL;
    }
    const Key *found = known_key(self, known, given);
    if (found == NULL && PyErr_Occurred())
        return NULL;
    if (found == NULL)
        Py_RETURN_NONE;
    const uint32_t number = ask(self, txn, &found->key, &size);
    if (number == TXC_DONE)
        return value_of(self, size);
    if (number != TXC_COMPUTE)
        return refuse(self, "txc_call", number);
    self->give_up(self->site, txn);
    Py_RETURN_NONE;
}

/* member(txn, at): returns the stamp and the moment of a pin at which the page may still be serialised, counted from the newest; None
 * past the last. */
static PyObject *site_member(PyObject *it, PyObject *args)
{
    Site *self = (Site *)it;
    uint64_t txn, at, moment;
    uint32_t stamp;
    if (!has_count(args, 2, "member") || !read_number(args, 0, UINT64_MAX, &txn) || !read_number(args, 1, SIZE_MAX, &at))
        return NULL;
    const uint32_t number = self->member_at(self->site, txn, (size_t)at, &stamp, &moment);
    if (number == TXC_DONE)
        return Py_BuildValue("(kK)", (unsigned long)stamp, (unsigned long long)moment);
    if (number != TXC_MISS)
        return refuse(self, "txc_member_at", number);
    Py_RETURN_NONE;
}

/* read_stamp(txn): returns the stamp at which the page's next query runs; None if it would pin the present. */
static PyObject *site_read_stamp(PyObject *it, PyObject *args)
{
    Site *self = (Site *)it;
    uint64_t txn;
    uint32_t stamp;
    if (!has_count(args, 1, "read_stamp") || !read_number(args, 0, UINT64_MAX, &txn))
        return NULL;
    const uint32_t number = self->read_stamp(self->site, txn, &stamp);
    if (number == TXC_DONE)
        return PyLong_FromUnsignedLong(stamp);
    if (number != TXC_MISS)
        return refuse(self, "txc_read_stamp", number);
    Py_RETURN_NONE;
}

/* ask(txn, place): asks for the version of a place, on which the function that is computed depends from then on. */
static PyObject *site_ask(PyObject *it, PyObject *args)
{
    Site *self = (Site *)it;
    uint64_t txn, place;
    size_t count;
    if (!has_count(args, 2, "ask") || !read_number(args, 0, UINT64_MAX, &txn) || !read_number(args, 1, UINT32_MAX, &place))
        return NULL;
    const txc_query query = {(uint8_t)(place % TABLES), TXC_ID, (uint32_t)(place / TABLES), 0};
    const uint32_t number = self->query_rows(self->site, txn, &query, &count);
    if (number != TXC_ANSWERED)
        return refuse(self, "txc_query_rows", number);
    Py_RETURN_NONE;
}

/* finish(txn, data): says what the function that is computed gives. */
static PyObject *site_finish(PyObject *it, PyObject *args)
{
    Site *self = (Site *)it;
    uint64_t txn;
    char *bytes;
    Py_ssize_t count;
    size_t size;
    if (!has_count(args, 2, "finish") || !read_number(args, 0, UINT64_MAX, &txn)
        || PyBytes_AsStringAndSize(PyTuple_GetItem(args, 1), &bytes, &count) < 0)
        return NULL;
    const uint32_t number = self->finish(self->site, txn, (const uint8_t *)bytes, (size_t)count, NULL, 0, &size);
    if (number != TXC_DONE && number != TXC_ANSWERED && number != TXC_NO_ROOM)
        return refuse(self, "txc_finish", number);
    Py_RETURN_NONE;
}

/* commit(txn): ends a page, and returns how many answers it had, and the stamp and moment of the pin at which all are right, or None. */
static PyObject *site_commit(PyObject *it, PyObject *args)
{
    Site *self = (Site *)it;
    uint64_t txn;
    txc_receipt receipt;
    if (!has_count(args, 1, "commit") || !read_number(args, 0, UINT64_MAX, &txn))
        return NULL;
    const uint32_t number = self->commit(self->site, txn, &receipt);
    if (number != TXC_DONE)
        return refuse(self, "txc_commit", number);
    if (!receipt.has_pin)
        return Py_BuildValue("(nO)", (Py_ssize_t)receipt.answers, Py_None);
    return Py_BuildValue("(n(kK))", (Py_ssize_t)receipt.answers, (unsigned long)receipt.stamp, (unsigned long long)receipt.moment);
}

/* Finds the exports in the library. If one is missing, returns 0 with an exception. */
static int find_exports(Site *self, const char *path)
{
    self->library = dlopen(path, RTLD_NOW | RTLD_LOCAL);
    for (size_t at = 0; self->library != NULL && at < LENGTH(EXPORTS); at++) {
        void *found = dlsym(self->library, EXPORTS[at].name);
        if (found == NULL)
            break;
        memcpy((char *)self + EXPORTS[at].at, &found, sizeof found);
        if (at + 1 == LENGTH(EXPORTS))
            return 1;
    }
    PyErr_SetString(PyExc_ImportError, dlerror());
    return 0;
}

/* Site(library, owner, address, key_type, refused): the calls of the site whose handle is at the address. */
static PyObject *site_new(PyTypeObject *type, PyObject *args, PyObject *named)
{
    uint64_t address;
    (void)named;
    if (!has_count(args, 5, "Site") || !read_number(args, 2, UINTPTR_MAX, &address))
        return NULL;
    PyObject *path = PyUnicode_EncodeFSDefault(PyTuple_GetItem(args, 0));
    allocfunc make = (allocfunc)PyType_GetSlot(type, Py_tp_alloc);
    Site *self = path == NULL ? NULL : (Site *)make(type, 0);
    if (self == NULL) {
        Py_XDECREF(path);
        return NULL;
    }
    self->owner = PyTuple_GetItem(args, 1);
    self->key_type = PyTuple_GetItem(args, 3);
    self->refused = PyTuple_GetItem(args, 4);
    Py_INCREF(self->owner);
    Py_INCREF(self->key_type);
    Py_INCREF(self->refused);
    self->site = (txc_site *)(uintptr_t)address;
    self->room = FIRST_ROOM;
    self->buffer = PyMem_Malloc(FIRST_ROOM);
    const int is_whole = self->buffer == NULL ? (PyErr_NoMemory(), 0) : find_exports(self, PyBytes_AsString(path));
    Py_DECREF(path);
    if (is_whole)
        return (PyObject *)self;
    Py_DECREF((PyObject *)self);
    return NULL;
}

static void site_free(PyObject *it)
{
    Site *self = (Site *)it;
    if (self->library != NULL)
        dlclose(self->library);
    PyMem_Free(self->buffer);
    Py_XDECREF(self->owner);
    Py_XDECREF(self->key_type);
    Py_XDECREF(self->refused);
    free_object(it);
}

static PyMethodDef SITE_METHODS[] = {
    {"begin", site_begin, METH_VARARGS, NULL}, {"call", site_call, METH_VARARGS, NULL}, {"hit", site_hit, METH_VARARGS, NULL}, {"member", site_member, METH_VARARGS, NULL},
    {"read_stamp", site_read_stamp, METH_VARARGS, NULL}, {"ask", site_ask, METH_VARARGS, NULL}, {"finish", site_finish, METH_VARARGS, NULL},
    {"commit", site_commit, METH_VARARGS, NULL}, {NULL, NULL, 0, NULL},
};

static PyType_Slot SITE_SLOTS[] = {
    {Py_tp_new, site_new}, {Py_tp_dealloc, site_free}, {Py_tp_methods, SITE_METHODS},
    {Py_tp_doc, "Site(library, owner, address, key_type, refused): the calls of a site, which its owner keeps open."}, {0, NULL},
};

static PyType_Spec SITE_SPEC = {"txcache._fast_c.Site", sizeof(Site), 0, Py_TPFLAGS_DEFAULT, SITE_SLOTS};

/* ---- the module */

static int add_type(PyObject *module, const char *name, PyType_Spec *spec)
{
    PyObject *type = PyType_FromSpec(spec);
    if (type == NULL)
        return -1;
    const int status = PyModule_AddObject(module, name, type); /* takes the reference if it succeeds */
    if (status < 0)
        Py_DECREF(type);
    return status;
}

static int fill(PyObject *module)
{
    if (add_type(module, "Key", &KEY_SPEC) < 0 || add_type(module, "Site", &SITE_SPEC) < 0 || PyModule_AddIntConstant(module, "FORM", FORM) < 0)
        return -1;
    return PyModule_AddIntConstant(module, "ABI", TXC_ABI);
}

static PyModuleDef_Slot MODULE_SLOTS[] = {{Py_mod_exec, fill}, {0, NULL}};

static PyModuleDef MODULE = {PyModuleDef_HEAD_INIT, "_fast_c", "The hot calls of a site.", 0, NULL, MODULE_SLOTS, NULL, NULL, NULL};

PyMODINIT_FUNC PyInit__fast_c(void)
{
    return PyModuleDef_Init(&MODULE);
}
