# Makes, installs and packs the libraries for C and the programs (docs/FROM_C.md).
#
#   make                what isn't there yet is proved, which takes its time: it says how long. make libraries, make programs: one of the two
#   make check          whether this checkout is sound on this machine, in some minutes
#   make install        into PREFIX, and below DESTDIR where that is given; make uninstall removes it again. Neither needs the kit
#   make installcheck   installs into an empty folder and packs, and tries both on the callers
#   make dist           a tarball that runs on machines without the kit, in out/dist; make tarball packs what make left
#   make clean          removes what was made here of the proved libraries and programs, and leaves these
SHELL = /bin/bash
.SHELLFLAGS = -o pipefail -c
.DELETE_ON_ERROR:
.NOTPARALLEL:

VERSION := $(shell cat VERSION)
# The number of the shared objects: it rises where a program that was linked before would not run any more.
ABI = 0

PREFIX = /usr/local
BINDIR = $(PREFIX)/bin
INCLUDEDIR = $(PREFIX)/include
LIBDIR = $(PREFIX)/lib
DATADIR = $(PREFIX)/share
MANDIR = $(DATADIR)/man
DOCDIR = $(DATADIR)/doc/hulayban
BASHDIR = $(DATADIR)/bash-completion/completions
ZSHDIR = $(DATADIR)/zsh/site-functions
FISHDIR = $(DATADIR)/fish/vendor_completions.d
PKGCONFIGDIR = $(LIBDIR)/pkgconfig
DESTDIR =
CC = cc
CFLAGS = -O2
LDFLAGS =
INSTALL = install
INSTALL_DATA = $(INSTALL) -m 644
# How the .pc files name the prefix; a tarball's go by the place where they lie.
PC_PREFIX = $(PREFIX)

# What is installed, made by the targets below, or handed in by whoever has proved it elsewhere.
PACKAGE = out/package
NAMES = hulayban hulayban_trace
ARCHIVES = $(NAMES:%=$(PACKAGE)/lib%.a)
SHARED = $(NAMES:%=$(PACKAGE)/lib%.so.$(ABI))
PROGRAMS = $(PACKAGE)/hrt $(PACKAGE)/hrt_check
OF_PROGRAMS = $(PROGRAMS) $(PACKAGE)/COMMIT
CALLERS := $(wildcard $(addprefix callers/,c/*.c expected/* python/*.py rust/Cargo.* rust/*.rs rust/src/*.rs rust/examples/*.rs))
TARBALL = out/dist/hulayban-$(VERSION)-x86_64-linux
DATE = $(or $(SOURCE_DATE_EPOCH),$(shell git log -1 --format=%ct 2> /dev/null),0)

.PHONY: all libraries programs check install install-libraries install-programs uninstall installcheck dist tarball clean
all: libraries programs

# A copy that is newer only where it differs.
take = { cmp -s $(1) $(PACKAGE)/$(2) || cp $(1) $(PACKAGE)/$(2); }
# Where bin/hrt keeps the proved program that use_hrt or use_hrt_check chooses.
place = place=$$(top=$$PWD && . tools/program.bash && $(1) && proved_place)

libraries:
	@mkdir -p $(PACKAGE)
	@folder=$$(bin/hrt lib) && $(call take,"$$folder/libhulayban.a",libhulayban.a) && \
	    $(call take,"$$folder/libhulayban_trace.a",libhulayban_trace.a) && $(call take,"$$folder/proof.log",libraries.log)
	@$(MAKE) --no-print-directory $(SHARED)

programs:
	@mkdir -p $(PACKAGE)
	@bin/hrt --prove && $(call place,use_hrt) && $(call take,"$$place",hrt) && $(call take,"$$place.log",hrt.log)
	@bin/hrt check --prove && $(call place,use_hrt_check) && $(call take,"$$place",hrt_check) && $(call take,"$$place.log",hrt_check.log)
	@git describe --always --dirty > $(PACKAGE)/COMMIT 2> /dev/null || echo no commit > $(PACKAGE)/COMMIT
	@top=$$PWD && . tools/program.bash && cp "$$(kit_folder)/KIT-ID" $(PACKAGE)/kit.log

$(ARCHIVES):
	@$(MAKE) --no-print-directory libraries

$(OF_PROGRAMS):
	@$(MAKE) --no-print-directory programs

$(PACKAGE)/%.so.$(ABI): $(PACKAGE)/%.a share/exports.map
	$(CC) $(CFLAGS) $(LDFLAGS) -shared -Wl,-soname,$(@F) -Wl,--version-script,share/exports.map -Wl,-z,defs -Wl,-z,relro -Wl,-z,now \
	    -Wl,--whole-archive $< -Wl,--no-whole-archive -o $@

check:
	.ci/quick

install: install-libraries install-programs

install-libraries: $(ARCHIVES) $(SHARED)
	$(INSTALL) -d $(DESTDIR)$(INCLUDEDIR) $(DESTDIR)$(LIBDIR) $(DESTDIR)$(PKGCONFIGDIR) $(addprefix $(DESTDIR)$(DOCDIR)/,$(sort $(dir $(CALLERS))))
	$(INSTALL_DATA) include/*.h $(DESTDIR)$(INCLUDEDIR)
	$(INSTALL_DATA) $(ARCHIVES) $(DESTDIR)$(LIBDIR)
	$(INSTALL) -m 755 $(SHARED) $(DESTDIR)$(LIBDIR)
	@for name in $(NAMES); do \
	    ln -sf lib$$name.so.$(ABI) $(DESTDIR)$(LIBDIR)/lib$$name.so && \
	    sed -e 's|@PREFIX@|$(PC_PREFIX)|' -e 's|@INCLUDEDIR@|$(INCLUDEDIR:$(PREFIX)/%=$${prefix}/%)|' -e 's|@LIBDIR@|$(LIBDIR:$(PREFIX)/%=$${prefix}/%)|' \
	        -e 's|@VERSION@|$(VERSION)|' share/$$name.pc.in > $(DESTDIR)$(PKGCONFIGDIR)/$$name.pc && \
	    chmod 644 $(DESTDIR)$(PKGCONFIGDIR)/$$name.pc || exit 1; \
	done
	@for file in $(CALLERS); do $(INSTALL_DATA) $$file $(DESTDIR)$(DOCDIR)/$$file || exit 1; done

# The door and what stands behind it lie together in a folder of their own; by the link in BINDIR it finds them.
HOME_OF = $(LIBDIR)/hulayban
install-programs: $(OF_PROGRAMS)
	$(INSTALL) -d $(addprefix $(DESTDIR),$(BINDIR) $(HOME_OF)/bin $(HOME_OF)/programs $(HOME_OF)/tools $(HOME_OF)/model \
	    $(MANDIR)/man1 $(BASHDIR) $(ZSHDIR) $(FISHDIR) $(DOCDIR)/docs $(DOCDIR)/examples)
	$(INSTALL) -m 755 bin/hrt $(DESTDIR)$(HOME_OF)/bin
	$(INSTALL) -m 755 $(PROGRAMS) $(DESTDIR)$(HOME_OF)/programs
	$(INSTALL_DATA) tools/*.py tools/*.bash $(DESTDIR)$(HOME_OF)/tools
	$(INSTALL_DATA) model/*.py $(DESTDIR)$(HOME_OF)/model
	$(INSTALL_DATA) VERSION $(PACKAGE)/COMMIT $(DESTDIR)$(HOME_OF)
	ln -sfr $(DESTDIR)$(HOME_OF)/bin/hrt $(DESTDIR)$(BINDIR)/hrt
	ln -sfr $(DESTDIR)$(HOME_OF)/programs/hrt_check $(DESTDIR)$(BINDIR)/hrt_check
	$(INSTALL_DATA) share/hrt.1 $(DESTDIR)$(MANDIR)/man1
	echo .so man1/hrt.1 > $(DESTDIR)$(MANDIR)/man1/hrt_check.1 && chmod 644 $(DESTDIR)$(MANDIR)/man1/hrt_check.1
	$(INSTALL_DATA) share/hrt.bash $(DESTDIR)$(BASHDIR)/hrt
	$(INSTALL_DATA) share/_hrt $(DESTDIR)$(ZSHDIR)/_hrt
	$(INSTALL_DATA) share/hrt.fish $(DESTDIR)$(FISHDIR)/hrt.fish
	$(INSTALL_DATA) LICENSE CHANGELOG.md $(DESTDIR)$(DOCDIR)
	$(INSTALL_DATA) docs/FROM_C.md docs/DEFINITIONS.md docs/TRACES.md docs/LINUX.md $(DESTDIR)$(DOCDIR)/docs
	$(INSTALL_DATA) examples/*.hrt examples/*.record* $(DESTDIR)$(DOCDIR)/examples

uninstall:
	rm -f $(addprefix $(DESTDIR)$(INCLUDEDIR)/,$(notdir $(wildcard include/*.h)))
	rm -f $(foreach it,$(NAMES),$(addprefix $(DESTDIR)$(LIBDIR)/,lib$(it).a lib$(it).so lib$(it).so.$(ABI)) $(DESTDIR)$(PKGCONFIGDIR)/$(it).pc)
	rm -f $(addprefix $(DESTDIR)$(BINDIR)/,hrt hrt_check) $(addprefix $(DESTDIR)$(MANDIR)/man1/,hrt.1 hrt_check.1)
	rm -f $(DESTDIR)$(BASHDIR)/hrt $(DESTDIR)$(ZSHDIR)/_hrt $(DESTDIR)$(FISHDIR)/hrt.fish
	rm -rf $(DESTDIR)$(HOME_OF) $(DESTDIR)$(DOCDIR)

installcheck:
	.ci/install

dist: all
	@$(MAKE) --no-print-directory tarball

# The same files in one folder that may lie anywhere, with their sums and what rt said when they were proved.
tarball: $(ARCHIVES) $(SHARED) $(OF_PROGRAMS)
	rm -rf $(TARBALL) $(TARBALL).tar.gz $(TARBALL).tar.gz.sha256
	mkdir -p $(TARBALL)/proof
	$(MAKE) --no-print-directory install DESTDIR= PREFIX=$(abspath $(TARBALL)) PC_PREFIX='$$$${pcfiledir}/../..'
	cp $(PACKAGE)/*.log $(TARBALL)/proof
	cp share/tarball.txt $(TARBALL)/README
	cd $(TARBALL) && find . -type f ! -name SHA256SUMS -printf '%P\0' | LC_ALL=C sort -z | xargs -0 sha256sum > SHA256SUMS
	tar -C $(dir $(TARBALL)) --sort=name --owner=0 --group=0 --numeric-owner --mode=go-w --mtime=@$(DATE) -cf - $(notdir $(TARBALL)) | gzip -9n > $(TARBALL).tar.gz
	cd $(dir $(TARBALL)) && sha256sum $(notdir $(TARBALL)).tar.gz > $(notdir $(TARBALL)).tar.gz.sha256
	rm -rf $(TARBALL)

clean:
	rm -rf out/package out/dist
