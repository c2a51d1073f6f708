/* The line that boardsim talks on. Where one can't be had, the program ends. */
#ifndef LINE_H
#define LINE_H

/* Opens a pseudo-terminal that passes bytes on as they are, and prints its name. */
int open_pty(void);

/* Listens on a TCP port of an address, and prints the port's number. */
int open_listener(const char *address, const char *port);

/* Reads and writes on a file never wait; its name is for the sentence where that can't be had. */
void make_nonblocking(int file, const char *name);

#endif
