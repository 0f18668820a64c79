/* Preloaded into a program, this refuses the request for memory whose number, from 0, is in the variable REFUSED. If the
 * program makes it, a byte is written to the file descriptor in the variable NOTE when the program ends. */
#include "refusing.h"
#include <stdlib.h>
#include <unistd.h>

static int note;

__attribute__((constructor)) static void begin(void)
{
    note = atoi(getenv("NOTE"));
    granted = atol(getenv("REFUSED"));
}

__attribute__((destructor)) static void end(void)
{
    if (refused && write(note, "1", 1) != 1)
        _exit(99);
}
