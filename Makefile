# make                     builds the library for C for this computer: target/c/TARGET/libtryphomel.a
# make TARGET=cortex-m3    for another target; ./build --help lists them
# make targets             for each of them
# make install PREFIX=..   header, library, pkg-config file, CMake package and manual page; DESTDIR and LIBDIR as elsewhere
# make uninstall PREFIX=.. takes them away again
# make check               holds header and docs against the definitions
TARGET ?= $(shell uname -m)
PREFIX ?= /usr/local
LIBDIR ?= lib
DESTDIR ?=

all:
	@./build --target '$(TARGET)' && echo 'target/c/$(TARGET)/libtryphomel.a'

targets:
	@for target in $$(./build --targets); do $(MAKE) --no-print-directory TARGET=$$target; done

install uninstall:
	@packaging/$@ '$(TARGET)' '$(PREFIX)' '$(LIBDIR)' '$(DESTDIR)'

check:
	outside/header
	outside/rules
	outside/docs

.PHONY: all targets install uninstall check
