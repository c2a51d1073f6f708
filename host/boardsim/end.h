/* How boardsim ends: a status, and a sentence where something went wrong. */
#ifndef END_H
#define END_H

enum status { STATUS_DONE = 0, STATUS_STORE_REFUSED = 1, STATUS_USAGE = 2, STATUS_SYSTEM = 3 };

/* Ends the program with a sentence. */
__attribute__((format(printf, 2, 3), noreturn)) void end_with(enum status status, const char *format, ...);

/* Ends the program where a system call failed. */
__attribute__((noreturn)) void end_system(const char *doing, const char *with);

#endif
