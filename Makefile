# make install PREFIX=/usr/local: installs the program, which is first proved and built or, with UNPROVED=1, compiled
# without its proofs; also the tools for live subnets, manual pages, completion for bash and zsh, and the documents on
# what they read and write (FORMATS) and how they go together (OPERATORS, LOOK, CHANGE, MANAGE).
# make uninstall PREFIX=/usr/local: removes what that installed.
# make dist: makes an archive of the same in out/, which installs without a kit, a compiler or make.
# make prove: proves and builds the program.
# make demo: shows what the program does, without hardware or rights; compiles it without proofs if it is not built.
# Needs the Rattle kit, a C compiler, libibumad (Debian: libibumad-dev) and Python 3.
PREFIX ?= /usr/local
DESTDIR ?=
UNPROVED ?=
PROGRAM := crates/ibsm/out/$(if $(UNPROVED),unproved/)ibsm
VERSION := $(shell sed -n 's/^VERSION = "\(.*\)"/\1/p' tools/lib/version.py)
# What is laid out to be installed, and its name as an archive.
NAME := ibsm-$(VERSION)$(if $(UNPROVED),-unproved)-$(shell uname -m)
STAGE := out/$(NAME)

all:
	./ibsm $(if $(UNPROVED),--unproved,--prove) --version
	$(MAKE) -C tools/record
	$(MAKE) -C tools/seat BUILD=../record/out
	$(MAKE) -C tools/search BUILD=../record/out

prove:
	./ibsm --prove --version

demo:
	tools/demo

stage: all
	tools/stage $(STAGE) $(PROGRAM) tools/record/out $(if $(UNPROVED),--unproved)

install: stage
	$(STAGE)/install.sh "$(PREFIX)" "$(DESTDIR)"

uninstall:
	tools/install.sh --uninstall "$(PREFIX)" "$(DESTDIR)"

dist: stage
	tar -C out --owner=0 --group=0 --sort=name -czf out/$(NAME).tar.gz $(NAME)
	cd out && sha256sum $(NAME).tar.gz >$(NAME).tar.gz.sha256

.PHONY: all prove demo stage install uninstall dist
