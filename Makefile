# The programs bench and boardsim, in C over the proved archives of station_c and board_c. The crate station_exports makes the first, of station_c's functions.
#
#   make           proves what the archives need, writes them and builds the programs into target/host
#   make run       plays an erase that loses its power halfway, without hardware
#   make test      the gate: every proof from nothing and every test
#   make install   PREFIX=/usr/local: programs, manual pages, headers, archives and a pkg-config file
#   make clean     removes what make wrote; what is proved stays proved
#
# It needs rt (the Rattle toolchain), gcc, make, bash and coreutils, on x86-64.

RT = rt
CC = gcc
CFLAGS = -O2 -g
WARNINGS = -Wall -Wextra -Wpedantic -Werror
PREFIX = /usr/local
DESTDIR =
VERSION = 1.0
OUT = target/host

# Each archive shows only the functions of its header; the crates that both are made of are hidden in them. So one program can link both.
STATION = target/staticlib/libstation_c.a
BOARD = target/staticlib/libboard_c.a
REPLAY = crates/replay/out/replay

# Each folder of host has its objects in a folder of its own, for a file in another may have the same name.
OBJECTS = $(OUT)/objects
BENCH_PARTS = bench command deadline decode echo erase fields help identity inside json line numbers options port port_serial \
        port_tcp progress read_back reply request say schedule show talk unused verdict words
BOARDSIM_PARTS = boardsim end line options
COMMON_OBJECTS = $(OBJECTS)/common/standard_files.o
# The simulated board that both programs have.
SIMULATION_PARTS = sim store_file
SIMULATION_OBJECTS = $(SIMULATION_PARTS:%=$(OBJECTS)/simulation/%.o)
BENCH_OBJECTS = $(BENCH_PARTS:%=$(OBJECTS)/bench/%.o) $(SIMULATION_OBJECTS) $(COMMON_OBJECTS)
BOARDSIM_OBJECTS = $(BOARDSIM_PARTS:%=$(OBJECTS)/boardsim/%.o) $(SIMULATION_OBJECTS) $(COMMON_OBJECTS)
# What rt reads of the crates, and not what it keeps in their folders out.
CRATE_FILES := crates.txt $(shell find crates \( -name must-fail -o -path 'crates/*/out' \) -prune -o -type f -print)
RT_IS_THERE = command -v $(RT) >/dev/null || { echo "rt, the Rattle toolchain, is not in the PATH: install it and try again" >&2; exit 1; }

.PHONY: all run test install clean
.DELETE_ON_ERROR:

all: $(OUT)/bench $(OUT)/boardsim

$(OUT)/bench: $(BENCH_OBJECTS) $(STATION) $(BOARD)
	$(CC) $(CFLAGS) -o $@ $^

$(OUT)/boardsim: $(BOARDSIM_OBJECTS) $(BOARD)
	$(CC) $(CFLAGS) -o $@ $^

# For the tests of bench: a peer that answers with any bytes, and a line that can be cut, moved and can lie.
$(OUT)/bench_peer $(OUT)/bench_line: $(OUT)/%: $(OBJECTS)/test/%.o
	$(CC) $(CFLAGS) -o $@ $^

$(OBJECTS)/%.o: host/%.c $(wildcard host/*.h host/*/*.h)
	@mkdir -p $(@D)
	$(CC) -std=c11 $(WARNINGS) -Ihost $(CFLAGS) -c -o $@ $<

# The crate that makes an archive has the archive's name, but for the station's: other crates use station_c, and rt makes no archive of such a crate.
MADE_BY = $*
$(STATION): MADE_BY = station_exports

target/staticlib/lib%.a: $(CRATE_FILES)
	@$(RT_IS_THERE)
	cd crates/$(MADE_BY) && $(RT) lib
	@mkdir -p $(@D)
	cp crates/$(MADE_BY)/out/lib$(MADE_BY).a $@

# The program replay stands where rt builds it. rt also runs what it builds; here on no bytes.
$(REPLAY): $(CRATE_FILES)
	@$(RT_IS_THERE)
	cd crates/replay && $(RT) run </dev/null
	@touch $@

run: all
	host/story $(OUT)

test:
	.ci/run

INSTALLED = $(DESTDIR)$(PREFIX)

install: all
	install -d $(INSTALLED)/bin $(INSTALLED)/include/pactosilve $(INSTALLED)/lib/pkgconfig $(INSTALLED)/share/man/man1
	install -m 755 $(OUT)/bench $(OUT)/boardsim $(INSTALLED)/bin
	install -m 644 host/station.h host/board.h $(INSTALLED)/include/pactosilve
	install -m 644 $(STATION) $(BOARD) $(INSTALLED)/lib
	install -m 644 host/man/bench.1 host/man/boardsim.1 $(INSTALLED)/share/man/man1
	sed -e 's|@PREFIX@|$(PREFIX)|' -e 's|@VERSION@|$(VERSION)|' host/pactosilve.pc.in >$(INSTALLED)/lib/pkgconfig/pactosilve.pc

clean:
	rm -rf $(OUT) target/staticlib $(REPLAY)
