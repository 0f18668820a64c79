/* A module for Python that refuses one request for memory of a call. It is preloaded; with PYTHONMALLOC=malloc, Python
 * gets all memory by ../refusing.h. */
#define Py_LIMITED_API 0x030B0000
#define PY_SSIZE_T_CLEAN
#include <Python.h>
#include "../refusing.h"

/* call(number, function, arguments): whether the request of this number was refused, what the call returned, and the
 * error that it raised. */
static PyObject *call(PyObject *Py_UNUSED(module), PyObject *args)
{
    long number;
    PyObject *function, *arguments, *type, *error, *trace;
    if (!PyArg_ParseTuple(args, "lOO!", &number, &function, &PyTuple_Type, &arguments))
        return NULL;
    granted = number, refused = 0;
    PyObject *result = PyObject_Call(function, arguments, NULL);
    granted = -1;
    PyErr_Fetch(&type, &error, &trace);
    if (type != NULL)
        PyErr_NormalizeException(&type, &error, &trace);
    PyObject *told = Py_BuildValue("iOO", refused, result != NULL ? result : Py_None, error != NULL ? error : Py_None);
    Py_XDECREF(result), Py_XDECREF(type), Py_XDECREF(error), Py_XDECREF(trace);
    return told;
}

static PyMethodDef methods[] = {{"call", call, METH_VARARGS, NULL}, {0}};
static PyModuleDef definition = {.m_base = PyModuleDef_HEAD_INIT, .m_name = "refusing", .m_methods = methods};

PyMODINIT_FUNC PyInit_refusing(void)
{
    return PyModule_Create(&definition);
}
