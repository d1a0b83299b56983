# make            proves and builds the program, as ./f77run --build does
# make check      passes the tests, as .ci/run does
# make install    installs below PREFIX, in DESTDIR if that is given
# make uninstall  removes what make install installs
# make dist       leaves a tarball, a Debian package and their sums in dist/

PREFIX = /usr/local
ZSH_FUNCTIONS = $(PREFIX)/share/zsh/site-functions

program = crates/driver/out/driver
# All documents.
documents = $(wildcard docs/*.md)
# The libraries for C, where they were made.
libraries = $(wildcard crates/c_library/out/libf77run.a crates/c_library/out/libf77run.so)

bin_folder = $(DESTDIR)$(PREFIX)/bin
man_folder = $(DESTDIR)$(PREFIX)/share/man/man1
bash_folder = $(DESTDIR)$(PREFIX)/share/bash-completion/completions
zsh_folder = $(DESTDIR)$(ZSH_FUNCTIONS)
fish_folder = $(DESTDIR)$(PREFIX)/share/fish/vendor_completions.d
doc_folder = $(DESTDIR)$(PREFIX)/share/doc/f77run
include_folder = $(DESTDIR)$(PREFIX)/include
lib_folder = $(DESTDIR)$(PREFIX)/lib

.PHONY: all check install uninstall dist

all:
	./f77run --build

check:
	.ci/run

install: all
	install -D -m 755 $(program) "$(bin_folder)/f77run"
	install -D -m 644 man/f77run.1 "$(man_folder)/f77run.1"
	install -D -m 644 completions/f77run.bash "$(bash_folder)/f77run"
	install -D -m 644 completions/_f77run "$(zsh_folder)/_f77run"
	install -D -m 644 completions/f77run.fish "$(fish_folder)/f77run.fish"
	install -D -m 644 -t "$(doc_folder)" README.md CHANGELOG.md CONTRIBUTING.md
	install -D -m 644 -t "$(doc_folder)/docs" $(documents)
	install -D -m 644 -t "$(doc_folder)/examples" examples/*
ifneq ($(libraries),)
	install -D -m 644 -t "$(lib_folder)" $(libraries)
	install -D -m 644 -t "$(include_folder)" include/f77run.h
	install -D -m 644 -t "$(doc_folder)/embedding" embedding/*
endif

uninstall:
	rm -f "$(bin_folder)/f77run" "$(man_folder)/f77run.1" "$(bash_folder)/f77run"
	rm -f "$(zsh_folder)/_f77run" "$(fish_folder)/f77run.fish"
	rm -f "$(lib_folder)/libf77run.a" "$(lib_folder)/libf77run.so" "$(include_folder)/f77run.h"
	rm -rf "$(doc_folder)"

dist: all
	packaging/dist
