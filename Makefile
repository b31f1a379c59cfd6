# The library, the chart program and the archive are made under target/dist, and installed from there:
#
#     make
#     make install PREFIX=/usr/local [DESTDIR=/tmp/package]
PREFIX = /usr/local
folder = target/dist/$(shell tools/dist --name)

.PHONY: dist install

dist:
	tools/dist

install:
	@test -d $(folder) || { echo "$(folder) is not there: make makes it"; exit 1; }
	$(MAKE) -C $(folder) install PREFIX=$(abspath $(PREFIX)) DESTDIR=$(abspath $(DESTDIR))
