# `make` alone prints the targets. SCRIPT is any path, from here or from the root, and so is the folder DATA.
SCRIPT ?= examples/plain_path.script
export SCRIPT DATA
# With TRY=1 a run that is drawn or checked is played before any proof.
PLAY = $(if $(TRY),try,play)

.PHONY: help test play built try view check bench script

help:
	@echo 'make test               the gate: proves every crate, tries the must-fail edits, runs tests and programs (45 to 90 minutes)'
	@echo 'make play SCRIPT=PATH   proves the program and plays a script (about an hour the first time, then at once);'
	@echo '                        with DATA=DIR its logs are kept in new files of this folder'
	@echo 'make try SCRIPT=PATH    plays a script before any proof (about a minute)'
	@echo 'make view SCRIPT=PATH   plays as make play does, and draws the run as a page beside the script'
	@echo 'make check SCRIPT=PATH  plays as make play does, and names the lines that went wrong'
	@echo '                        with TRY=1 these two play as make try does, before any proof'
	@echo 'make bench              proves and measures the play, of sites and crashes too, and reading and printing (minutes, after make play)'
	@echo
	@echo 'The times are for four processors with nothing else to do. Without SCRIPT, $(SCRIPT) is played.'

test:
	rt ci

script:
	@test -r "$$SCRIPT" || { echo "make: there is no script $$SCRIPT" >&2; exit 2; }

# A run that reads no line proves and builds. rt tells each crate as it comes to it; here it gets its number.
built:
	@echo 'make play: proves dc_shell and the crates below it, the lowest first: about an hour the first time, and' >&2
	@echo 'seconds where nothing has changed. It tells which crate is at hand. Then it plays the script.' >&2
	@all=$$(for it in $$(sed -n 's/^dc_shell://p;s/^dc_engine://p' crates.txt) dc_engine dc_shell; do \
			test ! -d "crates/$$it" || echo "$$it"; done | sort -u | wc -l); at=0; \
		cd crates/dc_shell && status=$$({ { rt run -- play < /dev/null 2>&1; echo $$? >&4; } | \
		while IFS= read -r line; do \
			case "$$line" in "rt: chose --jobs"*) at=$$((at + 1)); \
				echo "make play: crate $$at of $$all: $${line##* }";; esac; \
			printf '%s\n' "$$line"; \
		done >&2; } 4>&1) && exit "$$status"

# The program plays the script, and 1 tells of a bad line.
play: script built
	@crates/dc_shell/out/dc_shell play $${DATA:+"--data=$$DATA"} < "$$SCRIPT" || { status=$$?; \
		test $$status -eq 1 || exit $$status; \
		echo 'make play: the program ended with status 1: a line of the script is not in the grammar.' >&2; }

try: script
	@echo 'make try: builds dc_shell without a proof, which takes about a minute, and plays the script.' >&2
	@exec 3>&1 < "$$SCRIPT"; cd crates/dc_shell && said=$$(rt try -- play 2>&1 >&3); status=$$?; \
		printf '%s\n' "$$said" >&2; \
		case "$$status $$said" in \
		1*'run=ended status=1 '*) echo 'make try: a line of the script is not in the grammar.' >&2;; \
		*) exit $$status;; esac

# Draws beside the script, or where that can't be written, into a temporary file. The page's name is told.
view: script
	@folder=$$(mktemp -d) && name=$$(basename "$$SCRIPT" .script).html && page=$$(dirname "$$SCRIPT")/$$name && \
		$(MAKE) -s --no-print-directory $(PLAY) > "$$folder/replies" && \
		{ test -w "$$(dirname "$$SCRIPT")" || page=$$folder/$$name; } && \
		python3 view/run.py "$$SCRIPT" "$$folder/replies" -o "$$page" && echo "make view: drawn in $$page"

# Says which lines of the script went wrong.
check: script
	@folder=$$(mktemp -d) && $(MAKE) -s --no-print-directory $(PLAY) > "$$folder/replies" && \
		{ python3 view/wrong.py "$$SCRIPT" "$$folder/replies"; status=$$?; rm -r "$$folder"; test $$status -lt 2; }

bench:
	@echo 'make bench: proves dc_shell and text_bench, as make play does, and measures them.' >&2
	@cd crates/dc_shell && rt run -- play < /dev/null
	python3 bench/play/measure.py
	python3 bench/sites/measure.py
	python3 bench/crashes/measure.py
	@cd crates/text_bench && rt run -- show < stdin > /dev/null
	python3 bench/text/measure.py
