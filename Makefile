# Targets for people; the script 'sokoaudit' needs only prove-sokoaudit.
#   make                 proves and builds the program; make prove-CRATE proves one crate after the crates that it uses
#   make check           runs the gate, or without the toolchain all tests that need none (without make: python3 -m tests)
#   make fuzz            compares the program, the reference and the page's module on new random cases and on texts that are changed a little,
#                        for ten minutes, or MINUTES=60; SEED=5 repeats those of a seed, which is printed
#   make install         installs the program, sokotool, man pages, completions, documents and samples below DESTDIR/PREFIX
#   make install-tools   installs the same with the reference in place of the program, in seconds and without the toolchain
#                        (without make: python3 packaging/install-tools PREFIX)
#   make uninstall       removes them
#   make pyz             makes out/sokotool.pyz: sokotool, the reference and the manual in one file, which runs wherever Python does
#                        (without make: python packaging/pyz)
#   make dist            makes out/sokoaudit-VERSION-x86_64-linux.tar.xz, which can be unpacked anywhere
#   make deb             makes out/sokoaudit_VERSION_amd64.deb, and out/libsokoaudit-dev_VERSION_amd64.deb with the library for C
#   (dist and deb also test the packages, and compare them byte for byte with packages of a second build in another folder)
#   make lib             makes out/lib, which can be moved anywhere: the library for C with its header, sokoaudit.pc and a Python module;
#                        compares it with the program
#   make page            makes sokoaudit.html, the proved library in a page for browsers
#   make windows arm64   make out/windows and out/arm64: the program and the library for Windows, and for Linux on ARM64
PREFIX = /usr/local
DESTDIR =
prefix = $(DESTDIR)$(PREFIX)
built = crates/sokoaudit/out

all:
	@packaging/build
check:
	@python3 -m tests
fuzz: all
	@tests/run reference.fuzz --minutes $(or $(MINUTES),10) $(if $(SEED),--seed $(SEED)) --page sokoaudit.html $(built)/sokoaudit
pyz:
	@packaging/pyz
install: all
	packaging/install $(built)/sokoaudit "$(prefix)"
install-tools:
	python3 packaging/install-tools "$(prefix)"
uninstall:
	python3 packaging/install-tools --remove "$(prefix)"
dist deb: all
	@packaging/library out/lib
	@packaging/$@ $(built) out out/lib
	@tests/run packages $(built)
page: all
	@packaging/page sokoaudit.html
windows arm64: all
	@packaging/native $@ $(built)/sokoaudit out/$@
lib: all
	@packaging/library out/lib
	@tests/run library $(built)/sokoaudit out/lib

# A rule for each crate, from crates.txt. The crates in 'beside' don't use the crate cellset, so half of the jobs prove them at the same
# time as the rest. The toolchain locks the crates that a crate uses while it proves that, so two crates that share one take turns
JOBS = 1
beside = answers arguments devices lines
names := $(shell sed -n 's/^\([a-z_]*\).*:.*/\1/p' crates.txt)
below = $(filter $(names),$(shell sed -n 's/^$(1)[ a-z]*://p' crates.txt))
define rule
prove-$(1): $(patsubst %,prove-%,$(call below,$(1)))
	@packaging/build $(1) $(if $(filter $(1),$(beside)),$$$$((($(JOBS) + 1) / 2)),$(JOBS))
endef
$(foreach it,$(names),$(eval $(call rule,$(it))))

.PHONY: page windows arm64 all check fuzz pyz install install-tools uninstall dist deb lib $(names:%=prove-%)
