/* The quick way through a call: exact texts, numbers, truth values and floats, and what Python
 * prints, are laid out here, and lists and tables of them. Whatever else there is, and each fault,
 * is left to the modules beside this one: then a function returns None, and they do the same call
 * from the start.
 *
 * The calls of the library are given by their addresses, so that there is one library, which
 * _library.py has found. */
#if !defined(Py_LIMITED_API) && defined(INTERPOLATOR_LIMITED)
#define Py_LIMITED_API 0x030A0000
#endif
#define PY_SSIZE_T_CLEAN
#include <Python.h>

#include "interpolator.h"

/* ---- What the module knows: the library's calls, and some objects of the modules beside it */

typedef interpolator_answer (*format_call)(const char *, size_t, const interpolator_field *, size_t,
                                           const interpolator_field *, size_t, char *, size_t);
typedef interpolator_answer (*rows_call)(const char *, size_t, const interpolator_field *, size_t,
                                         const interpolator_field *, size_t, size_t *, size_t,
                                         char *, size_t);

static format_call library_format;
static rows_call library_rows;

/* text_for(value, request); the types whose values are left to the other modules, as a tuple; and
 * Decimal, which is printed by a spec, but under `{:?}`. */
static PyObject *text_for;
static PyObject *left_out;
static PyObject *decimal;

/* ---- How a format uses a value */

/* A request, as the library and as Python have it, and the spec by which a Decimal has the text. */
typedef struct {
  interpolator_request asked;
  PyObject *request;
  PyObject *spec;
} wanted;

typedef struct uses {
  wanted *all;
  Py_ssize_t count;
  struct uses *items; /* null if it is not used as a list */
} uses;

static void free_uses(uses *of) {
  Py_ssize_t k;
  for (k = 0; k < of->count; k++) {
    Py_XDECREF(of->all[k].request);
    Py_XDECREF(of->all[k].spec);
  }
  PyMem_Free(of->all);
  of->all = NULL;
  of->count = 0;
  if (of->items) {
    free_uses(of->items);
    PyMem_Free(of->items);
    of->items = NULL;
  }
}

/* Reads ((bytes of a request, request, spec), ..). */
static int read_wanted(uses *to, PyObject *from) {
  Py_ssize_t k, count = PyTuple_Size(from);
  if (count < 0) return -1;
  to->all = PyMem_Calloc(count ? (size_t)count : 1, sizeof *to->all);
  if (!to->all) return PyErr_NoMemory(), -1;
  for (k = 0; k < count; k++) {
    PyObject *one = PyTuple_GetItem(from, k), *bytes, *request, *spec;
    char *at;
    Py_ssize_t length;
    if (!one || !PyArg_ParseTuple(one, "OOO", &bytes, &request, &spec)) return -1;
    if (PyBytes_AsStringAndSize(bytes, &at, &length) < 0) return -1;
    if ((size_t)length != sizeof to->all[k].asked)
      return PyErr_SetString(PyExc_ValueError, "no request"), -1;
    memcpy(&to->all[k].asked, at, sizeof to->all[k].asked);
    Py_INCREF(request);
    to->all[k].request = request;
    Py_INCREF(spec);
    to->all[k].spec = spec;
    to->count = k + 1;
  }
  return 0;
}

/* Reads (wanted, uses of the items or None). */
static int read_uses(uses *to, PyObject *from) {
  PyObject *all, *items;
  to->all = NULL;
  to->count = 0;
  to->items = NULL;
  if (!PyArg_ParseTuple(from, "OO", &all, &items) || read_wanted(to, all) < 0) return -1;
  if (items == Py_None) return 0;
  to->items = PyMem_Calloc(1, sizeof *to->items);
  if (!to->items) return PyErr_NoMemory(), -1;
  return read_uses(to->items, items);
}

/* ---- The arrays of a call */

/* What is laid out grows as it is needed, and all of it is given back at the end of the call. */
typedef struct {
  interpolator_field *at;
  size_t count, room;
} array;

/* A list whose items are not laid yet. */
typedef struct {
  size_t field; /* its place in the array that holds it */
  PyObject *items;
  const uses *of;
} list;

typedef struct {
  array fields, items;
  list *lists; /* those of the next levels, in the order in which their items are laid */
  size_t first_list, list_count, list_room;
  PyObject **held; /* objects of which the fields have the bytes */
  size_t held_count, held_room;
  interpolator_lent **lent;
  size_t lent_count, lent_room;
  int gives_up; /* whether something is left to the other modules */
} laid;

static void free_laid(laid *of) {
  size_t k;
  for (k = 0; k < of->held_count; k++) Py_DECREF(of->held[k]);
  for (k = 0; k < of->lent_count; k++) PyMem_Free(of->lent[k]);
  PyMem_Free(of->fields.at);
  PyMem_Free(of->items.at);
  PyMem_Free(of->lists);
  PyMem_Free(of->held);
  PyMem_Free(of->lent);
}

/* The place for one more element of an array, which is enlarged if it is full. */
static int has_place(void **at, size_t count, size_t *room, size_t size) {
  size_t larger = *room * 2 + 16;
  void *moved;
  if (count < *room) return 1;
  moved = larger > (size_t)PY_SSIZE_T_MAX / size ? NULL : PyMem_Realloc(*at, larger * size);
  if (!moved) return PyErr_NoMemory(), 0;
  *at = moved;
  *room = larger;
  return 1;
}

static interpolator_field *next_field(array *of) {
  interpolator_field *field;
  if (!has_place((void **)&of->at, of->count, &of->room, sizeof *of->at)) return NULL;
  field = &of->at[of->count++];
  memset(field, 0, sizeof *field);
  return field;
}

/* Keeps an object until the end of the call; it takes the reference. */
static int hold(laid *to, PyObject *object) {
  if (!has_place((void **)&to->held, to->held_count, &to->held_room, sizeof *to->held)) {
    Py_DECREF(object);
    return -1;
  }
  to->held[to->held_count++] = object;
  return 0;
}

/* Something is left to the other modules. */
static int give_up(laid *to) {
  to->gives_up = 1;
  return -1;
}

/* The UTF-8 of a text, which lives as long as the text. */
static int bytes_of(laid *to, PyObject *text, interpolator_bytes *bytes) {
  Py_ssize_t length;
  bytes->at = PyUnicode_AsUTF8AndSize(text, &length);
  if (!bytes->at) {
    if (PyErr_ExceptionMatches(PyExc_MemoryError)) return -1;
    PyErr_Clear(); /* a lone surrogate */
    return give_up(to);
  }
  bytes->length = (size_t)length;
  return 0;
}

static int lay_number(laid *to, interpolator_field *field, PyObject *value) {
  int overflow;
  long long number = PyLong_AsLongLongAndOverflow(value, &overflow);
  if (overflow == 0) {
    field->kind = number < 0 ? INTERPOLATOR_SIGNED128 : INTERPOLATOR_UNSIGNED;
    field->number = number < 0 ? -1 : 0;
    field->natural = (uint64_t)number;
    return 0;
  }
  if (overflow < 0) return give_up(to);
  field->natural = PyLong_AsUnsignedLongLong(value);
  if (PyErr_Occurred()) {
    PyErr_Clear();
    return give_up(to);
  }
  field->kind = INTERPOLATOR_UNSIGNED;
  return 0;
}

/* The text of a value for a request, as a new reference. */
static PyObject *printed(laid *to, PyObject *value, const wanted *one) {
  int by_spec = (PyObject *)Py_TYPE(value) == decimal && one->asked.slot != INTERPOLATOR_DEBUG;
  PyObject *text = by_spec ? PyObject_Format(value, one->spec)
                           : PyObject_CallFunctionObjArgs(text_for, value, one->request, NULL);
  if (!text
      && (PyErr_ExceptionMatches(PyExc_ValueError) || PyErr_ExceptionMatches(PyExc_TypeError)
          || PyErr_ExceptionMatches(PyExc_ArithmeticError))) {
    PyErr_Clear(); /* the fault is found and told by the other modules */
    return give_up(to), NULL;
  }
  if (text && !PyUnicode_Check(text)) {
    Py_DECREF(text);
    return give_up(to), NULL;
  }
  return text;
}

/* Lends the texts that Python makes of a value. */
static int lay_printed(laid *to, interpolator_field *field, PyObject *value, const uses *of) {
  interpolator_lent *lent;
  Py_ssize_t k;
  field->kind = INTERPOLATOR_LENT;
  if (!of->count) return 0;
  if (!has_place((void **)&to->lent, to->lent_count, &to->lent_room, sizeof *to->lent)) return -1;
  lent = PyMem_Calloc((size_t)of->count, sizeof *lent);
  if (!lent) return PyErr_NoMemory(), -1;
  to->lent[to->lent_count++] = lent;
  for (k = 0; k < of->count; k++) {
    PyObject *text = printed(to, value, &of->all[k]);
    if (!text || hold(to, text) < 0 || bytes_of(to, text, &lent[k].text) < 0) return -1;
    lent[k].request = of->all[k].asked;
  }
  field->lent = lent;
  field->lent_count = (size_t)of->count;
  return 0;
}

/* Whether the value is of a type, or of one derived from it, that the other modules know more of.
 */
static int is_left_out(PyObject *value) {
  if (PyUnicode_Check(value) || PyLong_Check(value) || PyFloat_Check(value) || PyList_Check(value)
      || PyTuple_Check(value))
    return 1;
  return PyObject_IsInstance(value, left_out);
}

/* Lays out a value in a field that is the last one of its array; of a list the items come later. */
static int lay(laid *to, array *in, PyObject *value, const uses *of) {
  interpolator_field *field = &in->at[in->count - 1];
  int left;
  if (PyUnicode_CheckExact(value)) {
    field->kind = INTERPOLATOR_TEXT;
    return bytes_of(to, value, &field->text);
  }
  if (PyBool_Check(value)) {
    field->kind = INTERPOLATOR_TRUTH;
    field->natural = value == Py_True;
    return 0;
  }
  if (PyLong_CheckExact(value)) return lay_number(to, field, value);
  if (PyFloat_CheckExact(value)) {
    field->kind = INTERPOLATOR_DOUBLE;
    field->real = PyFloat_AsDouble(value);
    return 0;
  }
  if (PyList_CheckExact(value) || PyTuple_CheckExact(value)) {
    list *next;
    /* one that is printed as a whole, or is a cell, is rare */
    if (of->count || !of->items) return give_up(to);
    if (!has_place((void **)&to->lists, to->list_count, &to->list_room, sizeof *to->lists))
      return -1;
    next = &to->lists[to->list_count++];
    next->field = in->count - 1;
    next->items = value;
    next->of = of->items;
    field->kind = INTERPOLATOR_LIST;
    return 0;
  }
  left = is_left_out(value);
  if (left < 0) return -1;
  return left ? give_up(to) : lay_printed(to, field, value, of);
}

/* Lays out the items of one list after those that are there. */
static int lay_items(laid *to, const list *of) {
  int is_list = PyList_CheckExact(of->items);
  Py_ssize_t k;
  /* a list may be changed by what prints its items */
  for (k = 0; k < (is_list ? PyList_Size(of->items) : PyTuple_Size(of->items)); k++) {
    PyObject *item = is_list ? PyList_GetItem(of->items, k) : PyTuple_GetItem(of->items, k);
    if (!item) return -1;
    Py_INCREF(item);
    if (hold(to, item) < 0 || !next_field(&to->items) || lay(to, &to->items, item, of->of) < 0)
      return -1;
  }
  return 0;
}

/* Lays out the items of all lists, level by level: those of the fields, then those of the items. */
static int lay_lists(laid *to) {
  size_t level, end;
  for (level = 0; to->first_list < to->list_count; level++) {
    if (level == 64) return give_up(to);
    for (end = to->list_count; to->first_list < end; to->first_list++) {
      list next = to->lists[to->first_list];
      size_t first = to->items.count;
      interpolator_field *field;
      if (lay_items(to, &next) < 0) return -1;
      field = level ? &to->items.at[next.field] : &to->fields.at[next.field];
      field->first = first;
      field->end = to->items.count;
    }
  }
  return 0;
}

/* ---- Plans */

/* A format with its names, and how it uses each. */
typedef struct {
  PyObject_HEAD PyObject *format; /* bytes */
  PyObject *names;                /* a tuple of texts */
  uses *used;                     /* of each name */
  Py_ssize_t count;               /* of those that were read */
} plan;

static void plan_dealloc(PyObject *self) {
  plan *of = (plan *)self;
  PyTypeObject *type = Py_TYPE(self);
  freefunc release = (freefunc)PyType_GetSlot(type, Py_tp_free);
  while (of->count > 0) free_uses(&of->used[--of->count]);
  PyMem_Free(of->used);
  Py_XDECREF(of->format);
  Py_XDECREF(of->names);
  release(self);
  Py_DECREF(type);
}

/* Plan(format, names, uses of each): the format in UTF-8. */
static PyObject *plan_new(PyTypeObject *type, PyObject *words, PyObject *named) {
  PyObject *format, *names, *used;
  Py_ssize_t k, count;
  allocfunc make = (allocfunc)PyType_GetSlot(type, Py_tp_alloc);
  plan *of;
  (void)named;
  if (!PyArg_ParseTuple(words, "SO!O!", &format, &PyTuple_Type, &names, &PyTuple_Type, &used))
    return NULL;
  count = PyTuple_Size(names);
  if (PyTuple_Size(used) != count)
    return PyErr_SetString(PyExc_ValueError, "a name has no uses"), NULL;
  of = (plan *)make(type, 0);
  if (!of) return NULL;
  Py_INCREF(format);
  of->format = format;
  Py_INCREF(names);
  of->names = names;
  of->used = PyMem_Calloc(count ? (size_t)count : 1, sizeof *of->used);
  if (!of->used) {
    Py_DECREF(of);
    return PyErr_NoMemory();
  }
  for (k = 0; k < count; k++) {
    of->count = k + 1;
    if (read_uses(&of->used[k], PyTuple_GetItem(used, k)) < 0) {
      Py_DECREF(of);
      return NULL;
    }
  }
  return (PyObject *)of;
}

/* What a function returns that could not lay out its values. */
static PyObject *unfinished(const laid *of) {
  if (!of->gives_up) return NULL;
  Py_RETURN_NONE;
}

static int lay_row(laid *to, const plan *of, PyObject *values) {
  Py_ssize_t k;
  for (k = 0; k < of->count; k++) {
    PyObject *name = PyTuple_GetItem(of->names, k), *value = PyDict_GetItemWithError(values, name);
    interpolator_field *field;
    if (!value) return PyErr_Occurred() ? -1 : give_up(to);
    Py_INCREF(value);
    if (hold(to, value) < 0 || !(field = next_field(&to->fields))
        || bytes_of(to, name, &field->name) < 0)
      return -1;
    if (lay(to, &to->fields, value, &of->used[k]) < 0) return -1;
  }
  return lay_lists(to);
}

/* The text of a format over what is laid out; None of a fault. */
static PyObject *format_laid(const plan *of, const laid *row) {
  char small[512], *room = small;
  size_t size = sizeof small;
  char *format;
  Py_ssize_t length;
  PyObject *made = NULL;
  if (PyBytes_AsStringAndSize(of->format, &format, &length) < 0) return NULL;
  for (;;) {
    interpolator_answer got;
    Py_BEGIN_ALLOW_THREADS got =
        library_format(format, (size_t)length, row->fields.at, row->fields.count, row->items.at,
                       row->items.count, room, size);
    Py_END_ALLOW_THREADS if (got.code != INTERPOLATOR_OK) {
      Py_INCREF(Py_None);
      made = Py_None;
      break;
    }
    if (got.length <= size) {
      made = PyUnicode_DecodeUTF8(room, (Py_ssize_t)got.length, NULL);
      break;
    }
    if (room != small) PyMem_Free(room);
    size = got.length;
    room = PyMem_Malloc(size);
    if (!room) return PyErr_NoMemory();
  }
  if (room != small) PyMem_Free(room);
  return made;
}

/* format(dict): the text, or None if the other modules have to make it or its fault. */
static PyObject *plan_format(PyObject *self, PyObject *values) {
  laid row;
  PyObject *made;
  memset(&row, 0, sizeof row);
  if (!PyDict_Check(values)) return PyErr_SetString(PyExc_TypeError, "no dict"), NULL;
  made =
      lay_row(&row, (plan *)self, values) < 0 ? unfinished(&row) : format_laid((plan *)self, &row);
  free_laid(&row);
  return made;
}

/* ---- Tables */

/* The cell of a row under a column, borrowed; null, without an exception, if the row is no exact
 * tuple, list or dict, or has none. */
static PyObject *cell_of(PyObject *row, Py_ssize_t column, PyObject *names) {
  if (PyTuple_CheckExact(row)) return PyTuple_GetItem(row, column);
  if (PyList_CheckExact(row)) return PyList_GetItem(row, column);
  if (PyDict_CheckExact(row)) return PyDict_GetItemWithError(row, PyTuple_GetItem(names, column));
  return NULL;
}

static int has_length(PyObject *row, Py_ssize_t count) {
  if (PyTuple_CheckExact(row)) return PyTuple_Size(row) == count;
  if (PyList_CheckExact(row)) return PyList_Size(row) == count;
  return PyDict_CheckExact(row);
}

static int lay_cells(laid *to, const plan *of, PyObject *rows, Py_ssize_t count) {
  Py_ssize_t k, column;
  for (k = 0; k < count; k++) {
    PyObject *row = PyList_GetItem(rows, k);
    if (!row || !has_length(row, of->count)) return give_up(to);
    for (column = 0; column < of->count; column++) {
      PyObject *cell = cell_of(row, column, of->names);
      if (!cell) return PyErr_Occurred() ? -1 : give_up(to);
      Py_INCREF(cell);
      if (hold(to, cell) < 0 || !next_field(&to->fields)
          || lay(to, &to->fields, cell, &of->used[column]) < 0)
        return -1;
      if (to->list_count) return give_up(to);
    }
  }
  return 0;
}

/* The texts of rows that lie in a room, as a list. */
static PyObject *texts_of(const char *room, const size_t *ends, Py_ssize_t count) {
  PyObject *made = PyList_New(count);
  size_t start = 0;
  Py_ssize_t k;
  for (k = 0; made && k < count; k++) {
    PyObject *text = PyUnicode_DecodeUTF8(room + start, (Py_ssize_t)(ends[k] - start), NULL);
    if (!text || PyList_SetItem(made, k, text) < 0) {
      Py_DECREF(made);
      return NULL;
    }
    start = ends[k];
  }
  return made;
}

/* The most bytes of the first room for a table; if its text has more, the call is done again. */
#define FIRST_ROOM ((size_t)1 << 20)

/* The texts over what is laid out; None of a fault. */
static PyObject *rows_laid(const plan *of, const char *columns, const laid *table, size_t *ends,
                           Py_ssize_t count) {
  char *format, *room = NULL;
  Py_ssize_t length;
  size_t size;
  if (PyBytes_AsStringAndSize(of->format, &format, &length) < 0) return NULL;
  size = (size_t)count * ((size_t)length + 32);
  if (size > FIRST_ROOM) size = FIRST_ROOM;
  for (;;) {
    interpolator_answer got;
    PyObject *made = NULL;
    char *larger = PyMem_Realloc(room, size ? size : 1);
    if (!larger) {
      PyMem_Free(room);
      return PyErr_NoMemory();
    }
    room = larger;
    Py_BEGIN_ALLOW_THREADS got =
        library_rows(format, (size_t)length, (const interpolator_field *)columns, (size_t)of->count,
                     table->fields.at, table->fields.count, ends, (size_t)count, room, size);
    Py_END_ALLOW_THREADS if (got.code == INTERPOLATOR_OK && got.length > size) {
      size = got.length;
      continue;
    }
    if (got.code == INTERPOLATOR_OK) {
      made = texts_of(room, ends, count);
    } else {
      Py_INCREF(Py_None);
      made = Py_None;
    }
    PyMem_Free(room);
    return made;
  }
}

/* rows(bytes of the fields of the columns, list of rows): the texts, or None if the other modules
 * have to make them or a fault. The plan has a name for each column. */
static PyObject *plan_rows(PyObject *self, PyObject *words) {
  const plan *of = (plan *)self;
  laid table;
  PyObject *columns, *rows, *made = NULL;
  size_t *ends;
  Py_ssize_t count;
  memset(&table, 0, sizeof table);
  if (!PyArg_ParseTuple(words, "SO!", &columns, &PyList_Type, &rows)) return NULL;
  if ((size_t)PyBytes_Size(columns) != (size_t)of->count * sizeof(interpolator_field))
    return PyErr_SetString(PyExc_ValueError, "no columns"), NULL;
  count = PyList_Size(rows);
  ends = PyMem_Calloc(count ? (size_t)count : 1, sizeof *ends);
  if (!ends) return PyErr_NoMemory();
  if (lay_cells(&table, of, rows, count) < 0) made = unfinished(&table);
  else made = rows_laid(of, PyBytes_AsString(columns), &table, ends, count);
  free_laid(&table);
  PyMem_Free(ends);
  return made;
}

static PyMethodDef plan_methods[] = {
    {"format", plan_format, METH_O, "The text over a dict, or None."},
    {"rows", plan_rows, METH_VARARGS, "The texts of rows, or None."},
    {NULL, NULL, 0, NULL}};

static PyType_Slot plan_slots[] = {{Py_tp_new, (void *)plan_new},
                                   {Py_tp_dealloc, (void *)plan_dealloc},
                                   {Py_tp_methods, plan_methods},
                                   {Py_tp_doc, "A format with its names, and how it uses each."},
                                   {0, NULL}};

static PyType_Spec plan_spec = {"interpolator._speed.Plan", sizeof(plan), 0, Py_TPFLAGS_DEFAULT,
                                plan_slots};

/* ---- The module */

static void keep(PyObject **at, PyObject *object) {
  Py_INCREF(object);
  Py_XDECREF(*at);
  *at = object;
}

/* bind(addresses of interpolator_format and interpolator_rows, size of a field, text_for, left out,
 * Decimal). */
static PyObject *bind(PyObject *module, PyObject *words) {
  PyObject *format, *rows, *print, *types, *number;
  Py_ssize_t size;
  void *at_format, *at_rows;
  (void)module;
  if (!PyArg_ParseTuple(words, "OOnOO!O", &format, &rows, &size, &print, &PyTuple_Type, &types,
                        &number))
    return NULL;
  if ((size_t)size != sizeof(interpolator_field))
    return PyErr_SetString(PyExc_ImportError, "the structs of the library are others"), NULL;
  at_format = PyLong_AsVoidPtr(format);
  at_rows = PyLong_AsVoidPtr(rows);
  if (PyErr_Occurred()) return NULL;
  memcpy(&library_format, &at_format, sizeof library_format);
  memcpy(&library_rows, &at_rows, sizeof library_rows);
  keep(&text_for, print);
  keep(&left_out, types);
  keep(&decimal, number);
  Py_RETURN_NONE;
}

static PyMethodDef functions[] = {{"bind", bind, METH_VARARGS, "Tells the calls of the library."},
                                  {NULL, NULL, 0, NULL}};

static struct PyModuleDef module = {PyModuleDef_HEAD_INIT,
                                    "interpolator._speed",
                                    "The quick way through a call.",
                                    -1,
                                    functions,
                                    NULL,
                                    NULL,
                                    NULL,
                                    NULL};

PyMODINIT_FUNC PyInit__speed(void) {
  PyObject *made = PyModule_Create(&module), *type = made ? PyType_FromSpec(&plan_spec) : NULL;
  if (!type || PyModule_AddObject(made, "Plan", type) < 0) {
    Py_XDECREF(type);
    Py_XDECREF(made);
    return NULL;
  }
  return made;
}
