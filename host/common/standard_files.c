/* Standard input, output and error, which a caller may have closed. */
#define _POSIX_C_SOURCE 200809L

#include "standard_files.h"

#include <fcntl.h>
#include <stdlib.h>
#include <unistd.h>

bool standard_files_hold(void)
{
    bool had_output = fcntl(STDOUT_FILENO, F_GETFD) != -1;

    for (int file = STDIN_FILENO; file <= STDERR_FILENO; file++)
        if (fcntl(file, F_GETFD) == -1 && open("/dev/null", O_RDONLY) != file)
            abort(); /* there is no place left to say why */
    return had_output;
}
