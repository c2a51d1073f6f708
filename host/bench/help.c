/* How to use bench. */
#include "options.h"

#include <stdio.h>

static const char usage[] =
    "usage: bench -p PORT [-i ID|all] [--json] [-v] [-t SECONDS] COMMAND\n"
    "\n"
    "Talks to the control board of a display.\n"
    "\n"
    "To erase a set:\n"
    "  1. Connect the set's RS-232C plug to this computer and switch the set on. ls /dev/ttyUSB* /dev/ttyS*\n"
    "     lists the serial devices; a set on the network is tcp:HOST instead.\n"
    "  2. bench -p /dev/ttyUSB0 -i 1 serial\n"
    "     shows its serial number: compare it with the label. No reply? Try -i 2 to -i 8.\n"
    "  3. bench -p /dev/ttyUSB0 -i 1 erase\n"
    "     asks first. Leave the power on and the cable in until it is done.\n"
    "  4. The set is erased when bench says erased (exit status 0), and only then: the board that showed this\n"
    "     serial number has replied to this erase, and shows what an unused board shows. A clean menu and an\n"
    "     empty tag prove nothing. Did the power go? Switch it on; bench tries again, or go back to 3.\n"
    "To try it without a set: bench -p sim erase\n"
    "\n";

static const char commands[] =
    "Commands:\n"
    "  get NAME | get PAGE CODE               shows a setting\n"
    "  set NAME VALUE | set PAGE CODE VALUE   changes a setting\n"
    "      NAME is backlight, input, balance, pip-h, pip-v, ambient-low, ambient-high or tile;\n"
    "      numbers are decimal, or hexadecimal behind 0x\n"
    "  power on | power standby | power status\n"
    "  date | date set YYYY-MM-DD HH:MM       shows or sets the date, 2000 to 2099\n"
    "  serial, model                          show the serial number and the model\n"
    "  tag | tag write TEXT                   shows or writes the tag, at most 16 bytes\n"
    "  former-tag                             shows the tag before; a tag write leaves it in the board\n"
    "  schedule N                             shows program N of the weekly schedule, 0 to 6\n"
    "  schedule N on | schedule N off         enables or disables it\n"
    "  schedule N set ON OFF [input I] [days DAYS] daily|every-week|once [enabled|disabled]\n"
    "      sets it: ON and OFF are times as 07:00, or - for none; I is 1, 3, 17 or none; DAYS are as mon-fri or\n"
    "      mon,wed,sat-sun, or none; left out, there is no input, no day, and it is enabled\n"
    "  erase                                  erases settings, power mode, date, tags and programs, and says\n"
    "                                         erased, not erased or not known, or contradicted\n"
    "  decode HEX                             explains a reply given as hexadecimal digits, spaces allowed\n"
    "\n";

static const char options_and_status[] =
    "Options, anywhere in the line; what stands behind -- is taken as it is:\n"
    "  -p, --port PORT     a serial device, used with 9600 baud, 8 data bits, no parity and 1 stop bit; or\n"
    "                      tcp:HOST or tcp:HOST:PORT, usually port 7142; or sim, a simulated board inside bench,\n"
    "                      monitor 1\n"
    "      --store FILE    the store of the simulated board; made where there is none. Else it begins unused\n"
    "  -i, --id ID         the monitor ID, 1 to 8, default 1; or all, and then nobody replies\n"
    "  -t, --time SECONDS  how long to wait for a reply, 0.1 to 600; default 2. For the erase the time that one\n"
    "                      may take, default 10: give a slow board more\n"
    "      --json          JSON objects on standard output: one for each reply, and a last one for an error or\n"
    "                      for an erase's verdict\n"
    "  -v, --verbose       the bytes to the board (->) and from it (<-) on standard error\n"
    "      --yes           erases without asking\n"
    "  -h, --help          this text\n"
    "\n"
    "Exit status: 0 done, and of an erase: erased; 1 the board refused (result or status 01, or the NULL\n"
    "message); 2 wrong usage, or an erase that was not wanted; 3 no reply or a bad one. Of an erase alone:\n"
    "4 not erased or not known, an erase of all among them; 5 contradicted: the board replied to the erase,\n"
    "and what it shows is not an unused board's.\n";

void print_help(void)
{
    fputs(usage, stdout);
    fputs(commands, stdout);
    fputs(options_and_status, stdout);
}
