# make install [PREFIX=/usr/local] [DESTDIR=]     puts the program, its manual page, bash's completions, and the recipes that
#                                                 lead from Verilog and back (PREFIX/share/cyc) on their places
# make uninstall                                  takes them away
#
# The program is built first where it isn't, which proves it (./cyc).
PREFIX = /usr/local
bin = $(DESTDIR)$(PREFIX)/bin
man = $(DESTDIR)$(PREFIX)/share/man/man1
completions = $(DESTDIR)$(PREFIX)/share/bash-completion/completions
share = $(DESTDIR)$(PREFIX)/share/cyc
scripts = recipes/to_blif.sh recipes/to_verilog.sh recipes/source.awk
parts = recipes/wires.awk recipes/verilog.awk recipes/waves.awk docs/VERILOG.md

all:
	./cyc check examples/full_adder.blif

install: all
	install -d "$(bin)" "$(man)" "$(completions)" "$(share)"
	install -m 755 crates/cyc/out/cyc "$(bin)/cyc"
	install -m 644 docs/cyc.1 "$(man)/cyc.1"
	install -m 644 completions/cyc "$(completions)/cyc"
	install -m 755 $(scripts) "$(share)"
	install -m 644 $(parts) "$(share)"

uninstall:
	rm -f "$(bin)/cyc" "$(man)/cyc.1" "$(completions)/cyc"
	for it in $(notdir $(scripts) $(parts)); do rm -f "$(share)/$$it"; done
	[ ! -d "$(share)" ] || rmdir "$(share)"

.PHONY: all install uninstall
