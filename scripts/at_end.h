/* Calls the including file's `tell` when the program ends: when its main returns, or when it calls
 * `_exit`, as a program that may start threads does. */
#include <dlfcn.h>
#include <stdlib.h>
#include <unistd.h>

static void tell(void);

__attribute__((destructor)) static void tell_at_return(void)
{
    tell();
}

void _exit(int status)
{
    void (*real)(int) = dlsym(RTLD_NEXT, "_exit");
    tell();
    real(status);
    abort();
}
