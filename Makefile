# Installs pgv, and the side programs where they are built, with pages, completion, vim files, documents and examples; makes an
# archive and a Debian package of them, and a page of each machine in examples. It builds no program: `./pgv` proves and builds the program, and `./pg_explain` the one that
# all side programs are, as README.md says. The scripts in `packaging` do the work.
PREFIX ?= /usr/local
OUT ?= out

.PHONY: help install uninstall dist deb pages
help:
	@echo "make install PREFIX=..    the programs that are built, with pages, completion, vim files, documents and examples"
	@echo "make uninstall PREFIX=..  takes them away"
	@echo "make dist OUT=..          an archive of them for machines without the kit, and its SHA-256"
	@echo "make deb OUT=..           a Debian package"
	@echo "make pages OUT=..         a page of each machine in examples, and an index, in the folder pages"

install:
	@packaging/install "$(DESTDIR)$(PREFIX)"

uninstall:
	@packaging/install --remove "$(DESTDIR)$(PREFIX)"

# a script ends with 3 where a program that it needs is missing, and says so
dist:
	@packaging/dist "$(OUT)" || [ $$? = 3 ]

deb:
	@packaging/deb "$(OUT)" || [ $$? = 3 ]

pages:
	@packaging/pages "$(OUT)/pages"
