# Builds the engine for other programs to link, tests it and installs it. rt proves what has changed before anything is
# built.
#
#   make              the libraries and the program
#   make library      the static library, and the shared one made of it
#   make program      the program
#   make test         the gate (.ci/run): every crate proved, then tested
#   make install      puts them under PREFIX with header, command, man page and Python module; builds what is missing
#   make uninstall    removes what install puts there
#   make help         this list
#
# PREFIX is the folder that all is found under later; DESTDIR is put before it where the files are staged elsewhere.
# Install leaves what has been built as it stands.
PREFIX ?= /usr/local
DESTDIR ?=
export PREFIX DESTDIR

built := target/staticlib
command := target/bin/cession_cli
shared = $(CC) -shared -Wl,--whole-archive $(built)/libcession.a -Wl,--no-whole-archive -Wl,-soname,libcession.so \
	-o $(built)/libcession.so

.PHONY: all library program test install uninstall help
# Two runs of rt wait for each other, and would prove the same crates.
.NOTPARALLEL:

all: library program

# The static library, which rt names after its crate, and the shared one made of it.
library:
	@mkdir -p $(built)
	@(cd crates/cession_c && rt lib) > target/staticlib.log 2>&1 || { cat target/staticlib.log >&2; exit 1; }
	@install -m 644 crates/cession_c/out/libcession_c.a $(built)/libcession.a
	@$(shared)

# rt runs what it has built: without a table and without events, which the program answers with a refusal.
program:
	@mkdir -p $(dir $(command))
	@(cd crates/cession_cli && rt run < /dev/null) > target/program.log 2>&1 || { cat target/program.log >&2; exit 1; }
	@install -m 755 crates/cession_cli/out/cession_cli $(command)

# The gate calls make too, with folders of its own: nothing that this one was given is for those calls.
test:
	@env -u MAKEFLAGS -u PREFIX -u DESTDIR bash .ci/run

# The list at the head of this file.
help:
	@sed -n 's/^#   //p' $(firstword $(MAKEFILE_LIST))

$(built)/libcession.a:
	@$(MAKE) --no-print-directory library

$(built)/libcession.so: | $(built)/libcession.a
	@$(shared)

$(command):
	@$(MAKE) --no-print-directory program

# What is installed: its mode, its file here, its folder under PREFIX.
python := lib/cession/python/cession
files := \
	755:cession:bin \
	644:include/cession.h:include \
	644:$(built)/libcession.a:lib \
	755:$(built)/libcession.so:lib \
	755:$(command):libexec/cession \
	644:scripts/chart.py:libexec/cession \
	644:scripts/scaled.py:libexec/cession \
	$(patsubst %,644:%:libexec/cession/drawing,$(wildcard scripts/drawing/*.py)) \
	$(patsubst %,644:%:$(python),$(wildcard bindings/python/cession/*.py)) \
	$(patsubst %,644:examples/hurricane-sidney/%.txt:share/cession/hurricane-sidney,programme events statement) \
	644:docs/GUIDE.md:share/doc/cession \
	644:docs/hurricane-sidney.svg:share/doc/cession \
	644:docs/cession.1:share/man/man1

# Folders that hold nothing else, the inner ones first.
own := libexec/cession/drawing libexec/cession $(python) lib/cession/python lib/cession \
	share/cession/hurricane-sidney share/cession share/doc/cession

# The Python module looks for the shared library beside itself first. A folder that stands keeps its mode.
install: $(built)/libcession.a $(built)/libcession.so $(command)
	@for item in $(files); do \
		mode=$${item%%:*}; folder=$$DESTDIR$$PREFIX/$${item##*:}; file=$${item#*:}; file=$${file%:*}; \
		{ [ -d "$$folder" ] || install -d "$$folder"; } && install -m "$$mode" "$$file" "$$folder" || exit 1; \
	done; \
	ln -sf ../../../libcession.so "$$DESTDIR$$PREFIX/$(python)/libcession.so"

# A folder of its own in which someone has put something else stays.
uninstall:
	@for item in $(files); do \
		file=$${item#*:}; file=$${file%:*}; \
		rm -f "$$DESTDIR$$PREFIX/$${item##*:}/$${file##*/}" || exit 1; \
	done; \
	rm -f "$$DESTDIR$$PREFIX/$(python)/libcession.so"; \
	rm -rf "$$DESTDIR$$PREFIX/$(python)/__pycache__"; \
	for folder in $(own); do rmdir "$$DESTDIR$$PREFIX/$$folder" 2> /dev/null || true; done
