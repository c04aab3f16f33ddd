# Installs the program that `rt ci` or `rt run` built, with its pages: make install PREFIX=/usr/local
# Makes a Debian package of it: make deb, which leaves out/sipd_VERSION_amd64.deb
PREFIX ?= /usr/local
DESTDIR ?=
OUT ?= out
to = $(DESTDIR)$(PREFIX)
program = crates/sipd/out/sipd

install: $(program)
	install -D -m 755 $(program) $(to)/bin/sipd
	install -D -m 755 share/sipdctl $(to)/bin/sipdctl
	install -D -m 644 docs/sipd.1 $(to)/share/man/man1/sipd.1
	install -D -m 644 share/sipd.bash-completion $(to)/share/bash-completion/completions/sipd
	install -D -m 644 share/sipd.service $(to)/share/doc/sipd/sipd.service
	install -D -m 644 -t $(to)/share/doc/sipd README.md SECURITY.md CONTRIBUTING.md CHANGELOG.md
	install -D -m 644 -t $(to)/share/doc/sipd/docs docs/*.md
	install -D -m 644 -t $(to)/share/doc/sipd/docs/calling docs/calling/*.md
	{ git describe --always --dirty 2>/dev/null || echo unknown; } >$(to)/share/doc/sipd/REVISION
	find examples -type f | while read -r file; do install -D -m 644 $$file $(to)/share/doc/sipd/$$file; done

# Runs an example from the program's sources, before any proof: make try EXAMPLE=options COMMAND=replay
EXAMPLE ?= screened_call
COMMAND ?= trace
example = ../../examples/$(EXAMPLE)

try:
	cd crates/sipd && rt try --data config.toml=$(example)/config.toml --data dar.txt=$(example)/dar.txt \
		--data script=$(example)/script -- $(COMMAND) config.toml dar.txt script

version = $(shell sed -n 's/^pub const VERSION.*"sipd \(.*\)\\n";/\1/p' crates/sipd/src/help.rt)

deb: $(program)
	rm -rf $(OUT)/deb
	$(MAKE) -s install DESTDIR=$(OUT)/deb PREFIX=/usr
	install -D -m 644 share/sipd.service $(OUT)/deb/usr/lib/systemd/system/sipd.service
	gzip -9n $(OUT)/deb/usr/share/man/man1/sipd.1
	mkdir -p $(OUT)/deb/DEBIAN
	sed 's/@VERSION@/$(version)/' share/debian-control >$(OUT)/deb/DEBIAN/control
	dpkg-deb --root-owner-group --build $(OUT)/deb $(OUT)/sipd_$(version)_amd64.deb

$(program):
	@echo "no program at $(program); (cd crates/sipd && rt run) or .ci/run builds it" >&2
	@exit 1

.PHONY: try install deb
