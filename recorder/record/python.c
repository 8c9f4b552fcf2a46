/* The interpreter's functions are looked up while the program runs, so the recorder needs no Python to be built. */
#define _GNU_SOURCE
#include "python.h"

#include <dlfcn.h>
#include <pthread.h>
#include <stdio.h>
#include <string.h>

static struct {
    bool whole;
    int (*is_initialized)(void);
    int (*take)(void);
    void (*give_back)(int state);
    void *(*frame)(void);
    void *(*frame_below)(void *frame);
    void *(*code)(void *frame);
    int (*line)(void *frame);
    void *(*attribute)(void *object, const char *name);
    const char *(*text)(void *object);
    void (*drop)(void *object);
    void (*forget_error)(void);
} interpreter;

static pthread_once_t once = PTHREAD_ONCE_INIT;

/* A pointer to a function can't be converted in C, so its bytes are written. */
static bool look_up(void *function, const char *name) {
    void *found = dlsym(RTLD_DEFAULT, name);
    memcpy(function, &found, sizeof found);
    return found != NULL;
}

static void look_all_up(void) {
    interpreter.whole = look_up(&interpreter.is_initialized, "Py_IsInitialized") && look_up(&interpreter.take, "PyGILState_Ensure") &&
                        look_up(&interpreter.give_back, "PyGILState_Release") && look_up(&interpreter.frame, "PyEval_GetFrame") &&
                        look_up(&interpreter.frame_below, "PyFrame_GetBack") && look_up(&interpreter.code, "PyFrame_GetCode") &&
                        look_up(&interpreter.line, "PyFrame_GetLineNumber") && look_up(&interpreter.attribute, "PyObject_GetAttrString") &&
                        look_up(&interpreter.text, "PyUnicode_AsUTF8") && look_up(&interpreter.drop, "Py_DecRef") &&
                        look_up(&interpreter.forget_error, "PyErr_Clear");
}

/* Writes a frame's line. False where it lies in the interpreter's own import machinery, whose files have names such as `<frozen ..>`. */
static bool line_of(void *frame, char *line, size_t room) {
    bool written = false;
    void *code = interpreter.code(frame);
    void *file = code ? interpreter.attribute(code, "co_filename") : NULL;
    const char *name = file ? interpreter.text(file) : NULL;
    if (!name)
        interpreter.forget_error();
    else if (strncmp(name, "<frozen", 7) != 0) {
        int length = snprintf(line, room, "%s:%d", name, interpreter.line(frame));
        written = length > 0 && (size_t)length < room && !strchr(line, '\n');
    }
    if (file)
        interpreter.drop(file);
    if (code)
        interpreter.drop(code);
    return written;
}

bool python_line(char *line, size_t room) {
    pthread_once(&once, look_all_up);
    if (!interpreter.whole || !interpreter.is_initialized())
        return false;
    int state = interpreter.take();
    bool written = false;
    /* The innermost frame is lent, those below it are this function's own. */
    void *innermost = interpreter.frame(), *frame = innermost;
    while (frame && !(written = line_of(frame, line, room))) {
        void *below = interpreter.frame_below(frame);
        if (frame != innermost)
            interpreter.drop(frame);
        frame = below;
    }
    if (frame && frame != innermost)
        interpreter.drop(frame);
    interpreter.give_back(state);
    return written;
}
