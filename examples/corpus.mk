# For a folder of descriptions. `make -f corpus.mk` there makes the certificate of each description where it is missing or older,
# and tells all verdicts. `make -f corpus.mk verify ACCEPTED="NAME.."` has the certificates of these descriptions verified as they
# are, and ends well where each of the machines is accepted. PGV is the program.
PGV ?= pgv
ACCEPTED ?= $(names)
names := $(patsubst %.isa,%,$(sort $(wildcard *.isa)))

.PHONY: verdicts verify
verdicts: $(names:=.cert)
	@for name in $(names); do \
	  echo "$$name $$($(PGV) verify $$name.isa $$name.cert | grep -E '^(accepted|refused [^ ]+|open [^ ]+ [^ ]+)$$')"; \
	done

# The statuses 0, 1 and 2 are verdicts, and the certificate stands. It is saved whole or not at all.
%.cert: %.isa
	@told="$$($(PGV) check $< --cert $@)"; test $$? -le 2 || { echo "$<: $$told"; exit 1; }

verify: $(ACCEPTED:=.verified)
%.verified: %.isa
	@$(PGV) verify $< $*.cert >/dev/null
