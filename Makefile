.PHONY: test run refused

# The gate: every crate proved, every must-fail edit refused, every program and test run.
test:
	@rt ci

# Proves and builds the programs, lists the sample card, and runs the furnace.
run:
	@mkdir -p target
	@echo "Proving and building list_card (some minutes the first time) ..."
	@cd crates/list_card && rt run < stdin > ../../target/list_card.out 2> ../../target/list_card.log || { tail -n 20 ../../target/list_card.log; exit 1; }
	@echo "Listing the sample card crates/list_card/stdin:"
	@cat target/list_card.out
	@echo "Proving and building furnace ..."
	@cd crates/furnace && rt run > ../../target/furnace.out 2> ../../target/furnace.log || { tail -n 20 ../../target/furnace.log; exit 1; }
	@echo "Running the furnace:"
	@cat target/furnace.out

# Two programs that misuse a ticket, which the checker refuses before any proof. Outside the gate, whose edits must reach the prover.
refused:
	@bench/refused
