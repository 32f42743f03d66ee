.PHONY: demo build install examples checks tasks test bench c-library c-examples c-aarch64 page page-check

PROGRAM = crates/ecall/out/ecall
VIEW = crates/ecall_view/out/ecall_view
PREFIX = /usr/local

demo:
	@echo 'ecall run < examples/first-call.script, built in half a minute without any proof (`make build` proves it):'
	@cd crates/ecall && rt try -- run < ../../examples/first-call.script

build:
	rt all check --jobs 4
	cd crates/ecall && rt run -- run < /dev/null
	cd crates/ecall_view && rt run -- sets < /dev/null

install: build
	install -D $(PROGRAM) $(DESTDIR)$(PREFIX)/bin/ecall
	install -D $(VIEW) $(DESTDIR)$(PREFIX)/bin/ecall_view
	install -D -m 644 docs/ecall.1 $(DESTDIR)$(PREFIX)/share/man/man1/ecall.1
	install -D -m 644 docs/ecall_view.1 $(DESTDIR)$(PREFIX)/share/man/man1/ecall_view.1

examples: build
	examples/check $(PROGRAM)

checks:
	tools/own-checks $(PROGRAM)

tasks: build
	tools/c-library $(shell uname -m)-unknown-linux-gnu
	tools/transcripts --all $(PROGRAM) README.md

test:
	.ci/run

bench: build
	bench/run.py $(PROGRAM) $(BEFORE)
	bench/growth.py $(PROGRAM)
	bench/passes.py $(PROGRAM)
	bench/cache.py $(PROGRAM)
	bench/refuse.py $(PROGRAM)
	bench/view.py $(PROGRAM) $(VIEW)
	bench/live.py $(PROGRAM)
	bench/live_noise.py $(PROGRAM)
	bench/c.py c/out/$(shell uname -m)-unknown-linux-gnu

c-library:
	tools/c-library

c-examples:
	tools/c-library $(shell uname -m)-unknown-linux-gnu
	c/check c/out/$(shell uname -m)-unknown-linux-gnu

c-aarch64:
	tools/c-library aarch64-unknown-linux-gnu
	c/check c/out/aarch64-unknown-linux-gnu

page:
	tools/page

page-check: build
	tools/page --check $(PROGRAM)
