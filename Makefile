# make help lists the targets. The programs run by themselves: they need the C library alone.
VERSION = 0.4.0
prefix ?= /usr/local
PREFIX ?= $(prefix)
ifeq ($(origin prefix),command line)
PREFIX = $(prefix)
endif
NAMES := $(shell ./build --list)
PROGRAMS = $(foreach name,$(NAMES),crates/$(name)/out/$(name))
# The places below PREFIX. Debian has another folder for completions of zsh.
BASH = share/bash-completion/completions
ZSH = share/zsh/site-functions
FISH = share/fish/vendor_completions.d
DEBIAN_ZSH = share/zsh/vendor-completions
DOC = share/doc/stitch
MAINTAINER = Kaouzbrel maintainers <maintainers@users.noreply.kaouzbrel.example>

# The reader of SVG files.
SVG = $(wildcard python/stitch/svg/*.py)

# The extension of Inkscape: its files, the folder $(1) that they are copied to, and the folders $(2) of the programs for it.
# Inkscape reads extensions in its own data folder and in that of the user.
EXTENSION = $(wildcard inkscape/*.inx inkscape/*.py)
extend = install -d "$(1)/stitch/svg" && install -m 644 $(EXTENSION) "$(1)" && install -m 644 python/stitch/steps.py "$(1)/stitch" && \
	install -m 644 $(filter-out %_svgelements.py,$(SVG)) "$(1)/stitch/svg" && printf '%s\n' $(2) > "$(1)/folders.txt"
DIR ?= $(shell inkscape --user-data-directory 2> /dev/null)/extensions

# What the tar file and the folder in it are called, and the folder from which the Debian package is made.
BUNDLE = stitch-$(VERSION)-$(shell uname -m)
TREE = out/package/debian

ifneq ($(words x$(PREFIX)$(DESTDIR)x),1)
$(error PREFIX or DESTDIR ('$(PREFIX)', '$(DESTDIR)') has a space, and these recipes can install below no such folder)
endif

# The lines that copy all that is installed below the folder $(1), with completions of zsh in its folder $(2).
define copy
install -d $(1)/bin $(1)/share/man/man1 $(1)/$(BASH) $(1)/$(2) $(1)/$(FISH) $(1)/$(DOC)/docs
install -m 755 $(PROGRAMS) $(1)/bin
install -m 644 $(NAMES:%=man/%.1) $(1)/share/man/man1
for name in $(NAMES); do install -m 644 completions/$$name.bash $(1)/$(BASH)/$$name || exit; done
install -m 644 $(NAMES:%=completions/_%) $(1)/$(2)
install -m 644 $(NAMES:%=completions/%.fish) $(1)/$(FISH)
install -m 644 README.md CHANGELOG.md $(1)/$(DOC)
install -m 644 docs/*.md docs/*.svg docs/*.png $(1)/$(DOC)/docs
install -d $(1)/share/stitch/stitch/svg
install -m 755 redwork $(1)/bin
install -m 644 examples/from_svg.py inkscape/redwork_programs.py $(1)/share/stitch
install -m 644 python/stitch/steps.py $(1)/share/stitch/stitch
install -m 644 $(SVG) $(1)/share/stitch/stitch/svg
endef

# The WebAssembly module of the programs, if one is given.
MODULE ?=

# The library for C and Python: where it is put with its header and pkg-config file, and the kit, which has its heap.
FOLDER ?= out/library
PYTHON ?= python3
KIT = $(dir $(realpath $(shell command -v rt)))..
define pkgconfig
prefix=$(abspath $(FOLDER))
Name: stitch
Description: routes, checks, shows, converts and edits embroidery files
Version: $(VERSION)
Cflags: -I$${prefix}/include
Libs: -L$${prefix}/lib -lstitch
endef
export pkgconfig

.PHONY: build built cleared debian help inkscape install library package page tar test uninstall version wheel
build: ## prove and build the programs, in one run of the gate
	./build

install: built ## install them with manuals, completions and documents below PREFIX, /usr/local if not given
	$(call copy,$(DESTDIR)$(PREFIX),$(ZSH))
	@case $$(inkscape --system-data-directory 2> /dev/null) in $(PREFIX)/*) \
		$(call extend,$(DESTDIR)$$(inkscape --system-data-directory 2> /dev/null)/extensions/redwork,$(PREFIX)/bin) ;; esac

inkscape: ## install the extension of Inkscape into the folder DIR, that of your own extensions if not given
	@[ '$(DIR)' != /extensions ] || { echo "make: there is no inkscape: name its folder of extensions, as DIR=FOLDER" >&2; exit 1; }
	$(call extend,$(DIR)/redwork,$(abspath $(dir $(PROGRAMS))))

library: ## prove the library and put it with its header and pkg-config file below FOLDER, out/library if not given
	./build stitch_c
	install -d "$(FOLDER)/include" "$(FOLDER)/lib/pkgconfig"
	sed 's/@VERSION@/$(VERSION)/' include/stitch.h > "$(FOLDER)/include/stitch.h"
	printf '%s\n' "$$pkgconfig" > "$(FOLDER)/lib/pkgconfig/stitch.pc"
	$(CC) -shared -o "$(FOLDER)/lib/libstitch.so" -Wl,--whole-archive crates/stitch_c/out/libstitch_c.a \
		-Wl,--no-whole-archive,--exclude-libs,liblibc_c.a $(KIT)/c/liblibc_c.a

wheel: library ## write a wheel of the package for Python to out/, with the library; it needs pip, setuptools and wheel
	rm -rf out/wheel out/stitch-*.whl
	cp -r python out/wheel
	cp "$(FOLDER)/lib/libstitch.so" out/wheel/stitch
	echo $(VERSION) > out/wheel/VERSION
	printf '[bdist_wheel]\nplat_name = linux_%s\n' $$(uname -m) > out/wheel/setup.cfg
	$(PYTHON) -m pip wheel --quiet --no-index --no-deps --no-build-isolation -w out out/wheel
	rm -rf out/wheel

uninstall: ## remove what install installed
	rm -f $(addprefix $(DESTDIR)$(PREFIX)/,$(NAMES:%=bin/%) $(NAMES:%=share/man/man1/%.1) $(NAMES:%=$(BASH)/%))
	rm -f $(addprefix $(DESTDIR)$(PREFIX)/,$(NAMES:%=$(ZSH)/_%) $(NAMES:%=$(FISH)/%.fish))
	rm -rf $(DESTDIR)$(PREFIX)/$(DOC) $(DESTDIR)$(PREFIX)/share/stitch $(DESTDIR)$(PREFIX)/bin/redwork
	@case $$(inkscape --system-data-directory 2> /dev/null) in $(PREFIX)/*) \
		rm -rf "$(DESTDIR)$$(inkscape --system-data-directory 2> /dev/null)/extensions/redwork" ;; esac

package: tar $(if $(shell command -v dpkg-deb),debian) ## write a tar file and, with dpkg-deb, a Debian package to out/, for users without the kit
	rm -rf out/package
	@ls out/stitch*

page: ## write out/stitch.html, the page for any browser, with the module MODULE, or the one that page/wasm makes
	$(if $(MODULE),,mkdir -p out && page/wasm out/stitch.wasm)
	page/make $(or $(MODULE),out/stitch.wasm)

test: ## run all tests: see .ci/run
	.ci/run

version: ## print the version
	@echo $(VERSION)

help: ## list these targets
	@sed -n 's/^\([a-z]*\):.*## /\1\t/p' $(firstword $(MAKEFILE_LIST)) | expand -t 12

# As root nothing is proved to install or pack the programs: they must be up to date.
built:
	@if [ "$$(id -u)" -ne 0 ]; then ./build; elif ! ./build --check; then \
		echo "make: as root this proves nothing: type 'make build' first" >&2; exit 1; fi

cleared: built
	rm -rf out/package out/stitch*

tar: cleared
	$(call copy,out/package/$(BUNDLE),$(ZSH))
	tar -C out/package --sort=name --owner=0 --group=0 --numeric-owner -czf out/$(BUNDLE).tar.gz $(BUNDLE)

# The Debian package. It needs the C library of at least the version that the programs name.
debian: cleared
	$(call copy,$(TREE)/usr,$(DEBIAN_ZSH))
	gzip -9n $(TREE)/usr/share/man/man1/*.1
	install -d $(TREE)/DEBIAN
	libc=$$(grep -aoh 'GLIBC_2\.[0-9]*' $(PROGRAMS) | sort -V | tail -n 1) && \
	printf '%s\n' 'Package: stitch' 'Version: $(VERSION)' "Architecture: $$(dpkg --print-architecture)" \
		'Section: graphics' 'Priority: optional' 'Maintainer: $(MAINTAINER)' \
		"Depends: libc6$${libc:+ (>= $${libc#GLIBC_})}" \
		'Description: routes, checks, shows, converts and edits embroidery files' > $(TREE)/DEBIAN/control
	dpkg-deb --root-owner-group --build $(TREE) out/stitch_$(VERSION)_$$(dpkg --print-architecture).deb
