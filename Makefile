# The targets of this repository; those for C programs are in use.mk. `make help` shows all of them.
#
#: make run         run the day program, on the example day and on a season   30 seconds (*)
#: make check       the gate: layout, proofs, must-fail edits, tests, speed   35 minutes
#: make picture     draw the season as docs/season.svg; Graphviz is needed    2 seconds (*)
.PHONY: run check picture

run:
	tools/build day
	cd crates/day_main/data && ../../../target/bin/day_main
	mkdir -p target/season
	python3 examples/maker.py sheet examples/season.txt target/season/sheet.bin
	python3 examples/maker.py day examples/season.txt examples/season-day.txt target/season/day.bin
	cd target/season && ../bin/day_main

check:
	bash .ci/run

# Without the comments of dot, which name its version.
picture: examples
	mkdir -p target/season
	python3 examples/maker.py sheet examples/season.txt target/season/sheet.bin
	$(EXAMPLES_DIR)/lister --dot target/season/sheet.bin >target/season/sheet.dot
	dot -Tsvg -o target/season/sheet.svg target/season/sheet.dot
	sed -e '/^<!--.*-->$$/d' -e '/^<!--/,/-->$$/d' target/season/sheet.svg >docs/season.svg

include use.mk
