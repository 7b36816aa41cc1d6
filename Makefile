# make            proves the crates and builds target/lib/liblocker_aes.a and .so   (V=1 shows all that the prover says)
# make install    puts header, libraries and locker_aes.pc below PREFIX             (DESTDIR before it, for packagers)
# make check      the gate      make demo   the main job      make examples   three more programs      make bench   the speed
PREFIX     ?= /usr/local
LIBDIR     ?= $(PREFIX)/lib
INCLUDEDIR ?= $(PREFIX)/include
INSTALL    ?= install
export CC CXX CFLAGS CXXFLAGS LDFLAGS V

H        = include/locker_aes.h
VERSION != sed -n 's/^.define LOCKER_AES_VERSION  *"\(.*\)"/\1/p' $(H)
ABI     != sed -n 's/^.define LOCKER_AES_ABI  *\([0-9]*\)/\1/p' $(H)
INC      = $(DESTDIR)$(INCLUDEDIR)
LIB      = $(DESTDIR)$(LIBDIR)

all:
	@tools/build.sh

install: all
	$(INSTALL) -d $(INC) $(LIB)/pkgconfig
	$(INSTALL) -m 644 $(H) $(INC)/
	$(INSTALL) -m 644 target/lib/liblocker_aes.a $(LIB)/
	$(INSTALL) -m 755 target/lib/liblocker_aes.so.$(ABI) $(LIB)/
	ln -sf liblocker_aes.so.$(ABI) $(LIB)/liblocker_aes.so
	sed -e 's|@PREFIX@|$(PREFIX)|' -e 's|@LIBDIR@|$(LIBDIR)|' -e 's|@INCLUDEDIR@|$(INCLUDEDIR)|' \
	    -e 's|@VERSION@|$(VERSION)|' -e "s|@KIT@|$$(cat target/lib/kit)|" tools/locker_aes.pc.in >$(LIB)/pkgconfig/locker_aes.pc

uninstall:
	rm -f $(INC)/locker_aes.h $(LIB)/liblocker_aes.a $(LIB)/liblocker_aes.so $(LIB)/liblocker_aes.so.$(ABI) \
	    $(LIB)/pkgconfig/locker_aes.pc

check:
	@.ci/run

demo examples bench:
	@$@/run.sh

clean:
	rm -rf target crates/*/out

.PHONY: all install uninstall check demo examples bench clean
