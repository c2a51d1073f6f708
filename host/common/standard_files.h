/* Standard input, output and error, which a caller may have closed. */
#ifndef STANDARD_FILES_H
#define STANDARD_FILES_H

#include <stdbool.h>

/*
 * Opens those of the three that are closed, so that no line or store that is opened later takes their place and gets what is meant
 * for a reader. From standard input comes its end; what is written to the other two fails. Says whether standard output was open.
 */
bool standard_files_hold(void);

#endif
