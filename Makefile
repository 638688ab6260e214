# make run: plans the test card's district.   make test: the gate.   make prove: everything proved from nothing, and its time.
# make pins: wrong readings of the rules, each told apart by the stored cases.   make cited: names that the documents cite.
# make fuzz: files through the codec, against the reference.   make compare COUNT=..: programs against the reference.
# make tried: edits beside those of the gate.   make bench: the speed of plan beside that of the reference.

COUNT ?= 400
SEED ?= 1

.PHONY: run test prove pins cited tried fuzz compare bench

run:
	@scripts/need rt
	@scripts/run

test:
	@scripts/need rt cargo rustc
	@scripts/test

prove:
	@scripts/need rt
	@scripts/prove

pins:
	@scripts/need cargo rustc
	@scripts/pins

cited:
	@scripts/need cargo rustc
	@scripts/cited

tried:
	@scripts/need rt
	@scripts/tried

fuzz:
	@scripts/need rt cargo rustc
	@scripts/fuzz $(SEED)

compare:
	@scripts/need rt cargo rustc
	@scripts/build plan page panel transcode vectors up down deck pack unpack
	@scripts/compare $(COUNT) $(SEED)

bench:
	@scripts/need rt cargo rustc valgrind
	@scripts/bench $(SEED)
