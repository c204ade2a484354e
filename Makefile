# make try SCRIPT=FILE [MODE=report] [SETTINGS=TEXT]: the replies to a script, or to several, from a fresh clone in minutes; nothing is proved.
# make run SCRIPT=FILE [MODE=report] [SETTINGS=TEXT]: the same by the proved program, which is proved and built where it has to be.
# make test: the tests, with no proof.
# make test-all: the same, and the library for callers by each compiler of C, under sanitizers, with ten times as many random scripts.
# make prove: the gate: every proof, every test, and the wrong bodies that break a cache.
# make library: the library for callers in C, proved and built where it has to be; it says where it lies.
# make try-library: the same with no proof, in some four minutes of one core.
# make wheel: the package for Python, with the library that `make library` left in bindings/out; it says where it lies.
# make demo [DEMO="--postgres DSN"]: a web shop whose page shows the same parts by this cache and by a plain one, which tears. It wants make library or
#   make try-library before.
# make edits [CRATE=NAME]: all wrong bodies, also those that `make prove` leaves out for its time.
# make mutant NAME=..: one wrong body, and the verifier's message that names its false clause. From nothing it proves the crates below first: of a
#   low crate, as txc_node, in some five minutes. An unknown name is answered with the nearest ones.
# make refusals [TEST=NAME]: every allocation of the tests and of the program, refused in its turn.
# make soak: 3,000,000 lookups through one node that stores no records, and 3,000,000 commits from C through one site that stores no
#   events, on 512 items and on 100,000, each in a process of a fixed size; and ten minutes of values of up to 256 KiB in a budget of 64 MiB.
# make docs: the parts of the documents and of the tests that are made by script, and the pages of crates, in docs/out/.
SCRIPT ?= examples/1_page.txc
MODE ?=

# A word of the command line that nothing here knows is a slip of the pen.
GIVEN := $(foreach it,$(.VARIABLES),$(if $(findstring command line,$(origin $(it))),$(it)))
UNKNOWN := $(filter-out SCRIPT MODE SETTINGS CRATE NAME TEST DEMO JOBS RT_JOBS SEED,$(GIVEN))
ifneq ($(UNKNOWN),)
$(error there is no $(firstword $(UNKNOWN))=: the words are SCRIPT=, MODE=, SETTINGS=, CRATE=, NAME=, TEST= and DEMO=)
endif

.PHONY: try run test test-all prove library try-library wheel demo edits mutant refusals soak docs

try run:
	@scripts/$@.py $(if $(MODE),--mode "$(MODE)") $(if $(SETTINGS),--settings "$(SETTINGS)") "$(SCRIPT)"

test:
	@scripts/test.py

test-all:
	@scripts/test.py --all

prove:
	@scripts/prove.py

library:
	@scripts/library.py

try-library:
	@scripts/library.py --try

wheel:
	@bindings/python/build_wheel.py

demo:
	@cd bindings/python && PYTHONPATH=. TXC_LIBRARY=$${TXC_LIBRARY:-$$(ls -d ../out/libtxc_c.so ../out/unproved/libtxc_c.so 2>/dev/null | head -1 | xargs -r dirname)} \
	    python3 examples/shop_web $(DEMO)

edits:
	scripts/edits.py $(CRATE)

mutant:
	@scripts/mutant.py $(or $(NAME),"")

refusals:
	scripts/refusals.sh $(TEST)

soak:
	@scripts/soak.py
	@scripts/soak_library.py
	@scripts/soak_library.py 3,000,000 100,000
	@scripts/soak_values.py

docs:
	scripts/docs.py
	scripts/examples.py
