# How what is built is installed below $(DESTDIR)$(PREFIX), and removed.

# The version of tinycdb whose calls the library has, and what libraries of this name there are.
INTERFACE = $(shell sed -n 's/^.define TINYCDB_VERSION //p' clib/cdb.h)
OTHER_LIBRARIES = $(filter-out $(LIBDIR)/%,$(wildcard /usr/lib/libcdb.so.1 /usr/lib/*/libcdb.so.1))

.PHONY: install-program install-clib uninstall

# What is installed stands in lists, and `make uninstall` removes that and nothing else. A packager, whose tools remove what
# they installed, writes LISTS= for none.
LISTS := $(PREFIX)/share/pezundrix
NOTES := $(PREFIX)/share/doc/pezundrix
BASH_COMPLETION := $(PREFIX)/share/bash-completion/completions/cdb
ZSH_COMPLETION := $(PREFIX)/share/zsh/site-functions/_cdb
FISH_COMPLETION := $(PREFIX)/share/fish/vendor_completions.d/cdb.fish
PROGRAM_FILES = $(PREFIX)/bin/cdb $(PREFIX)/share/man/man1/cdb.1 $(PREFIX)/share/man/man5/cdb.5 \
	$(BASH_COMPLETION) $(ZSH_COMPLETION) $(FISH_COMPLETION) $(NOTES)/GUIDE.md $(NOTES)/LICENSE
CLIB_FILES = $(LIBDIR)/libcdb.so.1 $(LIBDIR)/libcdb.so $(LIBDIR)/libcdb.a $(LIBDIR)/libcdb_pic.a \
	$(LIBDIR)/pkgconfig/libcdb.pc $(PREFIX)/include/cdb.h $(PREFIX)/share/man/man3/cdb.3

# A program that runs keeps its file: the new one takes the name at once.
install-program: $(OUT)/cdb
	install -D -m 755 $(OUT)/cdb $(DESTDIR)$(PREFIX)/bin/cdb.new
	mv -f $(DESTDIR)$(PREFIX)/bin/cdb.new $(DESTDIR)$(PREFIX)/bin/cdb
	install -D -m 644 man/cdb.1 $(DESTDIR)$(PREFIX)/share/man/man1/cdb.1
	install -D -m 644 man/cdb.5 $(DESTDIR)$(PREFIX)/share/man/man5/cdb.5
	install -D -m 644 completion/cdb $(DESTDIR)$(BASH_COMPLETION)
	install -D -m 644 completion/_cdb $(DESTDIR)$(ZSH_COMPLETION)
	install -D -m 644 completion/cdb.fish $(DESTDIR)$(FISH_COMPLETION)
	install -D -m 644 docs/GUIDE.md $(DESTDIR)$(NOTES)/GUIDE.md
	install -D -m 644 LICENSE $(DESTDIR)$(NOTES)/LICENSE
	@test -z '$(LISTS)' || sh tools/installed.sh note '$(DESTDIR)' $(LISTS)/program.list $(PROGRAM_FILES)

# The loader may take this library for tinycdb's programs too, so a line says so.
install-clib: clib
	install -D -m 644 $(OUT)/libcdb.so.1 $(DESTDIR)$(LIBDIR)/libcdb.so.1.new
	mv -f $(DESTDIR)$(LIBDIR)/libcdb.so.1.new $(DESTDIR)$(LIBDIR)/libcdb.so.1
	ln -sf libcdb.so.1 $(DESTDIR)$(LIBDIR)/libcdb.so
	install -D -m 644 $(OUT)/libcdb.a $(DESTDIR)$(LIBDIR)/libcdb.a
	ln -sf libcdb.a $(DESTDIR)$(LIBDIR)/libcdb_pic.a
	install -D -m 644 clib/cdb.h $(DESTDIR)$(PREFIX)/include/cdb.h
	install -D -m 644 man/cdb.3 $(DESTDIR)$(PREFIX)/share/man/man3/cdb.3
	sed -e 's|@PREFIX@|$(PREFIX)|' -e 's|@LIBDIR@|$(LIBDIR)|' -e 's|@VERSION@|$(INTERFACE)|' \
		-e "s|@RELEASE@|$$(cat VERSION)|" clib/libcdb.pc.in > $(OUT)/libcdb.pc
	install -D -m 644 $(OUT)/libcdb.pc $(DESTDIR)$(LIBDIR)/pkgconfig/libcdb.pc
	@test -z '$(LISTS)' || sh tools/installed.sh note '$(DESTDIR)' $(LISTS)/clib.list $(CLIB_FILES)
	@test -n '$(DESTDIR)' || echo 'Run ldconfig, so that the loader finds the library.'
	@for other in $(OTHER_LIBRARIES); do \
		echo "$$other is installed too: programs load the one whose folder the loader searches first"; \
	done

uninstall:
	@sh tools/installed.sh remove '$(DESTDIR)' $(LISTS)/program.list $(LISTS)/clib.list
	@rmdir $(DESTDIR)$(LISTS) $(DESTDIR)$(NOTES) 2> /dev/null || true
