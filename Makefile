# Builds, installs and packs the auditor. Building takes the Rattle kit (rt), Rust (cargo) and a C compiler.

PREFIX ?= /usr/local
DESTDIR ?=
# Recipes take them from the shell, so that any name will do.
export PREFIX DESTDIR

manual = share/man/man1/tirfolma.1
completion = share/bash-completion/completions/tirfolma

.PHONY: all command program install uninstall test dist clean
# Two runs of rt at once would write the same files.
.NOTPARALLEL:

# The command and the paper's program: target/bin/tirfolma, target/bin/auditor.
all: command program

command:
	cli/make

program:
	dist/build auditor
	dist/link

# Installs the command, its manual page and its completion for bash, below DESTDIR and PREFIX. What is built already is not built again.
install: target/bin/tirfolma
	install -D -m 755 target/bin/tirfolma "$$DESTDIR$$PREFIX/bin/tirfolma"
	install -D -m 644 target/$(manual) "$$DESTDIR$$PREFIX/$(manual)"
	install -D -m 644 target/$(completion) "$$DESTDIR$$PREFIX/$(completion)"

target/bin/tirfolma: $(shell find cli/make cli/Cargo.toml cli/Cargo.lock cli/build cli/src include dist/build crates.txt crates \
	-path 'crates/*/out' -prune -o -type f -print)
	cli/make

# Removes what install puts there, with the same DESTDIR and PREFIX.
uninstall:
	rm -f "$$DESTDIR$$PREFIX/bin/tirfolma" "$$DESTDIR$$PREFIX/$(manual)" "$$DESTDIR$$PREFIX/$(completion)"

# The tests of the command.
test:
	cli/make test

# Packs what the gate (.ci/run) has passed, for machines without kit and Rust: target/dist/tirfolma-VERSION-COMMIT.tar.gz
dist:
	dist/pack

# Removes all that was built, proofs too.
clean:
	rm -rf target cli/target tests/reference/target crates/*/out
