# What a machine with the toolchain needs: nothing else is to be set up.
SCRIPT ?= examples/first.script
# What explore reads: a scene, where no SCRIPT is given.
SCENE = $(if $(filter file,$(origin SCRIPT)),examples/explore/two_walkers.scene,$(SCRIPT))
# Where run, show, trace, world, draw and explore write; without it to standard output.
OUT =
# Where install puts things; with DESTDIR below that folder.
PREFIX ?= /usr/local
DESTDIR ?=
export SCRIPT SCENE OUT PREFIX DESTDIR

.PHONY: help run show trace world draw explore threads examples build library install uninstall pages live quick faults test

# plays a script, and writes its answers
run:
	@tools/run.sh script "$$SCRIPT" "$$OUT"

# plays a script, and writes each event with its answer beside it
show:
	@tools/show.sh "$$SCRIPT" "$$OUT"

# plays a script, and writes its trace
trace:
	@tools/run.sh trace "$$SCRIPT" "$$OUT"

# plays a script, and writes the world that it leaves
world:
	@tools/run.sh world "$$SCRIPT" "$$OUT"

# plays a script, and writes the picture of what happened
draw:
	@tools/run.sh draw "$$SCRIPT" "$$OUT"

# tries all orders of the threads of a scene, and writes what is found for each of its questions
explore:
	@tools/run.sh explore "$$SCENE" "$$OUT"

# walkers, workers and an expirer as threads over one world
threads:
	@program=$$(tools/program.sh) && exec "$$program" threads

# plays all examples, and compares their answers
examples:
	@tools/examples.sh

# proves the program and builds it
build:
	cd crates/automount_cli && rt run -- script < /dev/null

# builds the library for C, in out/library
library:
	@tools/library.py build

# copies the program, its manual page, its completion for three shells and, where it is built, the library for C below
# the folder PREFIX
install:
	@tools/install.sh "$$PREFIX"

# removes what install copies below the folder PREFIX
uninstall:
	@tools/install.sh --remove "$$PREFIX"

# compares what the pages name with what there is, and runs what they show
pages:
	@tools/check_pages
	@tools/run_pages

# plays all examples, and the scripts of all rows of docs/LINUX.md that can be shown, on the running kernel, as root
live:
	@tools/linux/live.py examples/*.script tools/linux/rows/*.script

# all that can be run without proof, in some minutes; it proves nothing
quick:
	@tools/quick.py

# tries all planted faults, of all crates
faults:
	@tools/faults --all

# the merge gate: proofs and tests, planted faults, refused allocations, the examples, scripts and sweeps over them, the
# program over pipes, the library for C, and the pages
test:
	@tools/gate.py

# lists these
help:
	@awk '/^# / { text = text (text == "" ? "" : " ") substr($$0, 3); next } \
		/^[a-z]+:/ { sub(":.*", ""); printf "make %-9s %s\n", $$0, text } { text = "" }' Makefile
