# make             the program colljob and the C library, unproved, in a few minutes (once they are proved: the proved ones)
# make prove       both proved; from nothing an hour and a half
# make check       the proofs and all tests, ending in a line `N passed, N failed`; its parts are check-gate, check-tests, check-program,
#                  check-c, check-cpp, check-rust, check-mpi, check-recorder, check-recorded and check-install
# make theorem     docs/theorem: each theorem on one page, with all definitions that its reader must believe
# make install     PREFIX= (/usr/local) and DESTDIR=: program, manual pages, completions, headers, library, pkg-config file, and wzrecord with
#                  a recorder for each MPI library whose compiler is here (MPICC= names one more)
# make uninstall   the same PREFIX= and DESTDIR=
# make dist        out/worzsunab-VERSION-MACHINE.tar.gz, an installation that runs where it is unpacked
# make deb         two Debian packages in out/: worzsunab, and libworzsunab-dev with the C library and its headers
# make clean       what make made; what is proved stays
PREFIX ?= /usr/local
DESTDIR ?=
export PREFIX DESTDIR
BIN = $(DESTDIR)$(PREFIX)/bin
SHARE = $(DESTDIR)$(PREFIX)/share
BASH_WORDS = $(SHARE)/bash-completion/completions
ZSH_WORDS = $(SHARE)/zsh/site-functions
# The recorder's scripts look for colljob two folders above their own.
RECORDER = $(DESTDIR)$(PREFIX)/lib/worzsunab
MPI_CALLS = $(wildcard wzmpi/Makefile)
PARTS = gate tests program c cpp rust mpi recorder recorded install

all: program library

program:
	@tools/unproved program out/colljob > /dev/null

library:
	@if command -v $(firstword $(CC)) > /dev/null; then $(MAKE) --no-print-directory -C bindings all; \
	else echo "make: there is no $(CC), so the C library isn't built"; fi

prove:
	./colljob prove
	$(MAKE) -C bindings prove

check:
	@tools/check $(PARTS)

$(PARTS:%=check-%): check-%:
	@tools/check $*

theorem:
	tools/reading_list --pages docs/theorem
	tools/reading_list --counts

# A recorder for each MPI library whose compiler is here.
recorder:
	@recorder/libraries | while read -r library compiler; do \
		$(MAKE) --no-print-directory -s -C recorder MPICC="$$compiler" OUT="out/$$library" < /dev/null || exit 1; done

install: all recorder install-program install-recorder
	@if command -v $(firstword $(CC)) > /dev/null; then $(MAKE) --no-print-directory -C bindings install; fi
	@if [ "$(MPI_CALLS)" ] && command -v $(firstword $(CC)) > /dev/null; then $(MAKE) --no-print-directory -C wzmpi install; fi
	@if [ "$(MPI_CALLS)" ] && command -v $(firstword $(CC)) > /dev/null; then cp docs/wzcc.1 docs/wzfort.1 docs/wzrun.1 "$(SHARE)/man/man1"; fi

install-program: program
	mkdir -p "$(BIN)" "$(SHARE)/man/man1" "$(BASH_WORDS)" "$(ZSH_WORDS)"
	cp out/colljob "$(BIN)/colljob"
	cp docs/colljob.1 "$(SHARE)/man/man1"
	cp completions/colljob.bash "$(BASH_WORDS)/colljob"
	cp completions/_colljob "$(ZSH_WORDS)"

# Where no MPI library is here, wzrecord builds a recorder when it first needs one.
install-recorder:
	mkdir -p "$(BIN)" "$(SHARE)/man/man1" "$(BASH_WORDS)" "$(ZSH_WORDS)"
	recorder/install "$(RECORDER)"
	ln -sf ../lib/worzsunab/recorder/wzrecord ../lib/worzsunab/recorder/colljob-mpi "$(BIN)"
	cp docs/wzrecord.1 "$(SHARE)/man/man1"
	cp completions/wzrecord.bash "$(BASH_WORDS)/wzrecord"
	cp completions/_wzrecord "$(ZSH_WORDS)"

uninstall:
	rm -f $(addprefix "$(BIN)"/,colljob wzrecord colljob-mpi) $(addprefix "$(SHARE)"/man/man1/,colljob.1 wzrecord.1 wzcc.1 wzfort.1 wzrun.1)
	rm -f $(addprefix "$(BASH_WORDS)"/,colljob wzrecord) $(addprefix "$(ZSH_WORDS)"/,_colljob _wzrecord)
	rm -rf "$(RECORDER)"
	$(MAKE) --no-print-directory -C bindings uninstall
	@if [ "$(MPI_CALLS)" ]; then $(MAKE) --no-print-directory -C wzmpi uninstall; fi

# Both say of which commit they are, and whether the program and the library are proved.
dist deb:
	@tools/package $@

clean:
	rm -rf out crates/colljob/out/unproved crates/worzsunab/out/unproved
	$(MAKE) --no-print-directory -C recorder clean
	@if [ "$(MPI_CALLS)" ]; then $(MAKE) --no-print-directory -C wzmpi clean; fi

.PHONY: all program library recorder prove theorem dist deb check $(PARTS:%=check-%) install install-program install-recorder uninstall clean
