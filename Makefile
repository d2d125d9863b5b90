# make install PREFIX=..    the program, jslint-files and its library, manual pages, completions, the schema of the settings, licences and documents;
#                           DESTDIR goes in front
# make uninstall PREFIX=..  takes them out again
# make test                 tools/test

PREFIX = /usr/local
bin = $(DESTDIR)$(PREFIX)/bin
share = $(DESTDIR)$(PREFIX)/share
lib = $(DESTDIR)$(PREFIX)/lib/jslint
doc = $(share)/doc/jslint
PAGES = man/man1/jslint.1 man/man1/jslint-files.1
COMPLETIONS = bash-completion/completions/jslint zsh/site-functions/_jslint fish/vendor_completions.d/jslint.fish
# (as they link to one another)
DOCUMENTS = LICENSE-APACHE LICENSE-MIT README.md CHANGELOG.md release/README.md release/x86_64-linux-musl/COPYRIGHT $(wildcard docs/*.md docs/rules/*.md)
# The place of the documents in the manual pages, as roff writes it, for sed.
prefix_in_pages = $$(printf '%s\n' '$(PREFIX)' | sed 's/[\\]/\\e/g; s/-/\\-/g; s/[\\&|]/\\&/g')

all:
	@./jslint --program

install:
	@program=$$(./jslint --program) && prefix=$(prefix_in_pages) && \
	install -d '$(bin)' && install -m 755 "$$program" '$(bin)/jslint' && install -m 755 tools/jslint-files '$(bin)/jslint-files' && \
	install -d '$(share)/jslint/jslint_files' && install -m 644 tools/jslint_files/*.py '$(share)/jslint/jslint_files' && \
	install -m 644 packages/npm/lib/hints.json share/jslint/jslint.schema.json '$(share)/jslint' && \
	rm -rf '$(lib)' && { tools/shared-library '$(lib)/libjslint.so' || :; } && \
	{ ! command -v python3 >/dev/null || python3 -m compileall -q '$(share)/jslint/jslint_files'; } && \
	for each in $(PAGES); do \
		install -d "$$(dirname '$(share)'/$$each)" && sed "s|/usr/local/share/|$$prefix/share/|g" share/$$each >'$(share)'/$$each && \
			chmod 644 '$(share)'/$$each || exit; \
	done && \
	for each in $(COMPLETIONS); do \
		install -d "$$(dirname '$(share)'/$$each)" && install -m 644 share/$$each '$(share)'/$$each || exit; \
	done && \
	for each in $(DOCUMENTS); do \
		install -d "$$(dirname '$(doc)'/$$each)" && install -m 644 $$each '$(doc)'/$$each || exit; \
	done && \
	ln -sf jslint '$(share)/bash-completion/completions/jslint-files' && \
	ln -sf jslint.fish '$(share)/fish/vendor_completions.d/jslint-files.fish' && \
	echo "installed $$program as $(bin)/jslint"

uninstall:
	rm -f '$(bin)/jslint' '$(bin)/jslint-files' '$(share)/bash-completion/completions/jslint-files' '$(share)/fish/vendor_completions.d/jslint-files.fish'
	for each in $(PAGES) $(COMPLETIONS); do rm -f '$(share)'/$$each; done
	rm -rf '$(doc)' '$(share)/jslint' '$(lib)'

test:
	tools/test

.PHONY: all install uninstall test
