# make test: every check and test; its last line is 'N passed, M failed'.   make run: replays the worked book of the paper, and says why a
# card of another one waits.
# make bench: times beside plain C.   make soak SECONDS=60: the library beside the model, for so long.
.PHONY: test run bench soak
.NOTPARALLEL:
SECONDS ?= 60

test:
	@tools/gate

run:
	@tools/build-programs
	@target/bin/desk < examples/first.book
	@target/bin/why 1 < examples/waits.book

bench:
	@tools/build-programs
	@tools/bench

soak:
	@tools/soak $(SECONDS)
