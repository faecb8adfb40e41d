# make                      proves and builds the program and the libraries (needs rt and a C compiler; rustc for --replay,
#                           --page, --desk and the like, which are left out without it)
# make install PREFIX=..    puts them in their places below PREFIX (/usr/local), and below DESTDIR where that is set
# make uninstall PREFIX=..  takes them away again
# make test                 ./test
PREFIX = /usr/local
DESTDIR =

all:
	bash tools/install.sh build

install: all
	bash tools/install.sh install '$(PREFIX)' '$(DESTDIR)'

uninstall:
	bash tools/install.sh uninstall '$(PREFIX)' '$(DESTDIR)'

test:
	./test

.PHONY: all install uninstall test
