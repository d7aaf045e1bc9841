# `make help` says what there is.

SCRIPT ?= examples/first.script
NO_RT = There is no command rt here. This repository is proved and built by the Rattle kit, and by nothing else: the line that rt version prints stands in README.md, under \"What is trusted\".

.PHONY: help try play ci bench

help:
	@echo "make try SCRIPT=FILE    plays a script at once: the program is built without proof, each time"
	@echo "make play SCRIPT=FILE   proves the crates that the program stands on, builds it and plays; where nothing has changed, nothing is proved again"
	@echo "make ci                 the gate: each proof, test, must-fail edit and example"
	@echo "make bench              measures"
	@echo "tools/timeline          draws what was printed: make -s try SCRIPT=FILE | tools/timeline"
	@echo
	@echo "Without SCRIPT it is examples/first.script. README.md shows a script and its journal, docs/SCRIPT.md each line of both."

try:
	@command -v rt >/dev/null || { echo "$(NO_RT)" >&2; exit 1; }
	@test -r "$(SCRIPT)" || { echo "There is no script $(SCRIPT) that can be read." >&2; exit 1; }
	@cd crates/scsi_play && rt try < "$(abspath $(SCRIPT))"

play:
	@tools/play "$(SCRIPT)"

ci:
	@.ci/run

bench:
	@bench/run
