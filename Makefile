# make prove: proves and builds the program, of its crates those that changed; CRATE=own_cards: that program.
# make run:   answers the lines that are typed by the proved program, and where that isn't there, by an unproved one,
#             which takes about a minute to build the first time; its first line says which of the two.
# make try:   opens the client's terminal before the unproved program, whether or not the proved one is there.
# make serve: serves HiSLIP clients on port 4880 of this machine by the proved program, until Ctrl-C; PORT=4881: on that
#             port; ADDRESS=192.168.1.5: at that address, for all that reach it; RACK=rack.toml: the cards of that file.
# make try-serve: likewise by the unproved program.
# make install: copies the proved program, the client, the service and its unit below /usr/local, with a manual page of
#             the commands; PREFIX=/opt/rack: below that folder; DESTDIR=image: into that folder as if it were the root.
# make test:  the whole gate.
# make tests: tries the program that is built, without any proof; PART=clients: by one part (a folder of tests).
# make wrong: tries every wrong body, whatever is recorded of it.
# make check CRATE=sw_lex: proves one crate.
# make bench: times the program on each workload; NAME=lists: on one.
# make bench-serve: times sessions over the network, against a bare echo in the same run.
# make soak:  sixteen sessions at work for some rounds, with a watcher, and hostile streams; ROUNDS=100: a hundred.
# make help:  these lines, as `make` alone.
RT ?= rt
export RT

PREFIX ?= /usr/local
LIBRARY = $(PREFIX)/lib/mainframe
UNITS = $(PREFIX)/lib/systemd/system
MANUAL = $(PREFIX)/share/man/man1
AT = --address $(or $(ADDRESS),127.0.0.1) --port $(or $(PORT),4880) $(if $(RACK),--rack $(RACK))
BUILT = crates/mainframe/out/mainframe

.PHONY: help prove run serve try try-serve install test tests wrong check bench bench-serve soak

help:
	@sed -n '/^#/!q; s/^# //p' Makefile

prove:
	@build/program prove $(CRATE)

run try:
	@build/program $@

serve try-serve:
	@build/program $@ $(AT)

install:
	@program=$$(build/program proved) && install -D "$$program" "$(DESTDIR)$(PREFIX)/bin/mainframe"
	@install -d "$(DESTDIR)$(LIBRARY)" "$(DESTDIR)$(UNITS)" "$(DESTDIR)$(MANUAL)"
	@install examples/service examples/swm.py "$(DESTDIR)$(LIBRARY)"
	@install -m 644 examples/terminal.py "$(DESTDIR)$(LIBRARY)"
	@sed 's|/usr/local|$(PREFIX)|g' examples/mainframe.service > "$(DESTDIR)$(UNITS)/mainframe.service"
	@build/manual > "$(DESTDIR)$(MANUAL)/mainframe.1"

test:
	@./gate

tests:
	@tests/run $(BUILT) $(PART)

wrong:
	@wrong/try --all

check:
	@cd crates/$(CRATE) && $(RT) check

bench:
	@bench/run $(NAME)

bench-serve:
	@bench/serve $(BUILT)
	@bench/status $(BUILT)

soak:
	@tests/soak/run $(BUILT) $(if $(ROUNDS),--rounds $(ROUNDS))
	@tests/hostile/run $(BUILT) --streams 500
