# The C part: builds the static and the shared libraries and installs them with their headers and files for pkg-config.
#
#   make                  the libraries, below target/; the proofs come first, so that rt (the Rattle toolchain) is needed
#   make install          installs below PREFIX, /usr/local if not given; a packager's DESTDIR is put before it
#   make uninstall        removes what was installed
#   make timing           a static library for measuring slips, which is not installed
#   make program          the program check_log, below target/ too; it is not installed
#
# All are built again where anything below crates/ is newer, but for what rt keeps there in out/. After a change of the toolchain: make -B.

PREFIX = /usr/local
LIBDIR = $(PREFIX)/lib
INCLUDEDIR = $(PREFIX)/include
DESTDIR =
INSTALL = install

# The libraries. Each has a header of its name; it exports just these calls, whatever else the archive has.
libraries = skovarnek skovarnek_slip
calls_of_skovarnek = skovarnek_check
calls_of_skovarnek_slip = skovarnek_slip_check skovarnek_slip_write
# The crates whose static libraries they are: skovarnek_slip itself is a library for Rattle.
crate_of_skovarnek = skovarnek
crate_of_skovarnek_slip = skovarnek_slip_c
crate_of_slip_timing = slip_timing
about_skovarnek = A proved checker of Streamlet logs
about_skovarnek_slip = Proved slips: what is final in a Streamlet log, for those who hold no office

# The header states the version. As long as MAJOR is 0, a program built for one MINOR does not load another.
number = $(shell sed -n 's/^.define SKOVARNEK_VERSION_$(1) //p' include/skovarnek.h)
abi := $(call number,MAJOR).$(call number,MINOR)
version := $(abi).$(call number,PATCH)

static = target/staticlib/lib$(1).a
shared = target/sharedlib/lib$(1).so.$(version)
program = target/bin/check_log
lib = $(DESTDIR)$(abspath $(LIBDIR))
include = $(DESTDIR)$(abspath $(INCLUDEDIR))
installs = $(libraries:%=install-%)
uninstalls = $(libraries:%=uninstall-%)

.PHONY: all timing program install uninstall $(installs) $(uninstalls)
.DELETE_ON_ERROR:
# One rt at a time works below crates/.
.NOTPARALLEL:

all: $(foreach name,$(libraries),$(call static,$(name)) $(call shared,$(name)))

timing: $(call static,slip_timing)

program: $(program)

# The folders are named too: they are newer where a file was removed. Those of whole crates are left out, since rt makes and removes out/ in them.
sources := crates.txt $(shell find crates -mindepth 2 -path 'crates/*/out' -prune -o -print)

$(call static,%): $(sources)
	cd crates/$(crate_of_$*) && rt lib
	mkdir -p $(@D)
	cp crates/$(crate_of_$*)/out/lib$(crate_of_$*).a $@

# rt builds a program only where it also runs it: here on a log of no bytes.
$(program): $(sources)
	cd crates/check_log && rt run </dev/null >/dev/null
	mkdir -p $(@D)
	cp crates/check_log/out/check_log $@

$(call shared,%): $(call static,%) include/skovarnek.h Makefile
	mkdir -p $(@D)
	echo '{ global: $(addsuffix ;,$(calls_of_$*)) local: *; };' > $(@D)/$*.exports
	$(CC) $(LDFLAGS) -shared -Wl,-soname,lib$*.so.$(abi) -Wl,--version-script,$(@D)/$*.exports -Wl,-z,defs,-z,text,-z,now \
		-Wl,--whole-archive $< -Wl,--no-whole-archive -o $@

define pkg_config
prefix=$(abspath $(PREFIX))
libdir=$(abspath $(LIBDIR))
includedir=$(abspath $(INCLUDEDIR))

Name: $(1)
Description: $(about_$(1))
Version: $(version)
Cflags: -I$${includedir}
Libs: -L$${libdir} -l$(1)
endef

install: $(installs)

$(installs): install-%: $(call static,%) $(call shared,%)
	$(INSTALL) -d $(include) $(lib)/pkgconfig
	$(INSTALL) -m 644 include/$*.h $(include)/$*.h
	$(INSTALL) -m 644 $(call static,$*) $(lib)/lib$*.a
	$(INSTALL) -m 755 $(call shared,$*) $(lib)/lib$*.so.$(version)
	ln -sf lib$*.so.$(version) $(lib)/lib$*.so.$(abi)
	ln -sf lib$*.so.$(abi) $(lib)/lib$*.so
	$(file > target/$*.pc,$(call pkg_config,$*))
	$(INSTALL) -m 644 target/$*.pc $(lib)/pkgconfig/$*.pc

uninstall: $(uninstalls)

$(uninstalls): uninstall-%:
	rm -f $(include)/$*.h $(lib)/lib$*.a $(lib)/pkgconfig/$*.pc
	rm -f $(lib)/lib$*.so $(lib)/lib$*.so.$(abi) $(lib)/lib$*.so.$(version)
