# price and desk, the fronts of the proved programs: make front builds target/front/bin/price and target/front/bin/desk. FRONT names another folder
# than target/front, and FRONT_FLAGS other flags than -O2: the tests build with -Werror, which a compiler of a later day could break, and with sanitizers.
FRONT ?= target/front
FRONT_FLAGS ?= -O2
front_warnings := -Wall -Wextra -Wpedantic -Wconversion
front_version := $(shell cat VERSION)
front_sources := $(filter-out src/front/price.c src/front/desk.c,$(wildcard src/front/*.c))
front_common := $(front_sources:src/front/%.c=$(FRONT)/%.o)

.PHONY: front
front: $(FRONT)/bin/price $(FRONT)/bin/desk

$(FRONT)/bin/%: $(FRONT)/%.o $(front_common)
	@mkdir -p $(FRONT)/bin
	$(CC) $(FRONT_FLAGS) $(LDFLAGS) -o $@ $^

$(FRONT)/%.o: src/front/%.c $(wildcard src/front/*.h) $(FRONT)/refusals.h VERSION front.mk
	$(CC) -std=c99 -D_POSIX_C_SOURCE=200809L -DTOZBIERDU_VERSION_STRING='"$(front_version)"' $(front_warnings) $(FRONT_FLAGS) $(CPPFLAGS) $(CFLAGS) -I$(FRONT) -c -o $@ $<

# what a refusal means at the desk, from the one table of refusals
$(FRONT)/refusals.h: docs/REFUSALS.md src/front/refusals.awk
	@mkdir -p $(FRONT)
	awk -f src/front/refusals.awk docs/REFUSALS.md >$@.new
	mv $@.new $@

.PRECIOUS: $(FRONT)/%.o
