# For the Makefiles of the extensions: sets INCLUDES, the folders of byte_unit.h, and ARCHIVE, the path of libbyte_unit.a.
# LIBRARY=DIR names a folder with both, which tools/make-libraries fills, or the folder `lib` of a prefix, in whose
# `include` the header is. Without it bindings/c/library.sh finds both, or builds the archive by cargo: the first time, and
# if its sources have changed.
ifdef LIBRARY
INCLUDES := $(LIBRARY) $(LIBRARY)/../include
ARCHIVE := $(LIBRARY)/libbyte_unit.a
else
BINDINGS := $(dir $(lastword $(MAKEFILE_LIST)))../
INCLUDES := library
ARCHIVE := library/libbyte_unit.a
SOURCES := $(shell find $(BINDINGS)c/src $(BINDINGS)rust/src -name '*.rs') $(BINDINGS)c/byte_unit.h
MADE := $(wildcard $(BINDINGS)../crates/byte_unit_c/out/libbyte_unit_c.a)

$(ARCHIVE): $(SOURCES) $(MADE)
	sh $(BINDINGS)c/library.sh library
endif
