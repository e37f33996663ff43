# How the C library is built: of the proved code in $(OUT)/libcdb_c.a, of the toolchain's C in $(HEAP), for which the
# target `heap` looks, and of the C of this folder. And the programs that the tests need.

# How the C of the library is compiled. An export writes the words of a value one by one, so a read of several
# at once would wait until all are written: no compiler may put such reads together. The gate adds -Werror.
CLIB_FLAGS := -std=c11 -O2 -Wall -Wextra -fno-tree-slp-vectorize
# Checks of the sizes of buffers, unless the flags that are set say how many, and of the ends of those on the
# stack, unless they say of which functions.
CLIB_FLAGS += $(if $(findstring _FORTIFY_SOURCE,$(CPPFLAGS) $(CFLAGS)),,-U_FORTIFY_SOURCE -D_FORTIFY_SOURCE=2)
CLIB_FLAGS += $(if $(findstring stack-protector,$(CPPFLAGS) $(CFLAGS)),,-fstack-protector-strong)
# gcc puts such reads together in one more step, which only its own flag leaves out. clang has no such step.
SINGLE_READS = $(shell $(CC) -fno-store-merging -x c -E /dev/null > /dev/null 2>&1 && echo -fno-store-merging)
WERROR ?=
# The flags that say how a program is linked, which no library takes.
KINDS := -static -static-pie -pie -no-pie
CLIB_SOURCES := clib/hashing.c clib/libcdb.c clib/seeking.c clib/making.c
CLIB_OBJECTS := $(CLIB_SOURCES:clib/%.c=$(OUT)/%.o)

.PHONY: clib heap

clib: $(OUT)/libcdb.so.1 $(OUT)/libcdb.a

$(OUT)/%.o: clib/%.c clib/cdb.h
	@mkdir -p $(OUT)
	$(CC) $(CLIB_FLAGS) $(SINGLE_READS) $(WERROR) $(CPPFLAGS) $(CFLAGS) -fPIC -fno-lto -c -o $@ $<

# What each object of the static library has of cdb.h. An object keeps of the proved functions those that
# these calls reach, under names that no other object sees, so a program may have names of its own.
IN_words := cdb_pack cdb_unpack
IN_hashing := cdb_hash
IN_libcdb := cdb_init cdb_free cdb_find cdb_findinit cdb_findnext cdb_seqnext cdb_get cdb_read
IN_seeking := cdb_seek cdb_bread
IN_making := cdb_make_start cdb_make_add cdb_make_exists cdb_make_find cdb_make_put cdb_make_finish cdb_make_abort
ARCHIVED := words hashing libcdb seeking making
ARCHIVED_OBJECTS := $(ARCHIVED:%=$(OUT)/archived/%.o)

$(OUT)/archived/%.o: $(CLIB_OBJECTS) $(OUT)/libcdb_c.a | heap
	@mkdir -p $(OUT)/archived
	$(LD) -r --gc-sections $(IN_$*:%=-u %) -o $@ \
		$(sort $(OUT)/hashing.o $(filter $(OUT)/$*.o,$(CLIB_OBJECTS))) $(OUT)/libcdb_c.a $(HEAP)
	objcopy $(IN_$*:%=-G %) $@

$(OUT)/libcdb.a: $(ARCHIVED_OBJECTS)
	rm -f $@
	$(AR) rc $@ $(ARCHIVED_OBJECTS)

$(OUT)/libcdb.so.1: $(CLIB_OBJECTS) $(OUT)/libcdb_c.a clib/libcdb.map | heap
	$(filter-out $(KINDS),$(CC)) -Wl,--gc-sections -Wl,-z,relro,-z,now $(filter-out $(KINDS),$(CFLAGS) $(LDFLAGS)) \
		-shared -fno-lto -Wl,-soname,libcdb.so.1 -Wl,--version-script=clib/libcdb.map \
		-o $@ $(CLIB_OBJECTS) $(OUT)/libcdb_c.a $(HEAP)

$(OUT)/answers $(OUT)/makes: $(OUT)/%: tests/clib/%.c clib/cdb.h $(OUT)/libcdb.so.1
	$(CC) -O2 -Wall -Wextra $(WERROR) -Iclib -o $@ $< $(OUT)/libcdb.so.1

# The same calls by the static library, with memory and calls of the system refused.
$(OUT)/refused: tests/clib/makes.c tests/clib/refuse.c clib/cdb.h $(OUT)/libcdb.a
	$(CC) -O2 -Wall -Wextra $(WERROR) -Iclib -o $@ tests/clib/makes.c tests/clib/refuse.c $(OUT)/libcdb.a

# The same by the address sanitizer, if the compiler has it.
$(OUT)/sanitized: tests/clib/makes.c $(CLIB_SOURCES) clib/cdb.h $(OUT)/libcdb_c.a
	-@$(CC) -g -fsanitize=address -Iclib -o $@ tests/clib/makes.c $(CLIB_SOURCES) \
		$(OUT)/libcdb_c.a $(HEAP)

# Look-ups by the C that no proof covers, by two sanitizers.
$(OUT)/seeks: tests/clib/seeks.c clib/seeking.c clib/cdb.h
	@mkdir -p $(OUT)
	$(CC) -g -O1 -Wall -Wextra $(WERROR) -fsanitize=address,undefined -fno-sanitize-recover=all -Iclib -o $@ \
		tests/clib/seeks.c clib/seeking.c

# Calls at the edges of the page, each of which reaches an export by way of premises.c.
EXPORTS := hash find begin next record_end next_record file_number make_start make_put make_append make_count \
	make_written make_exists make_remove
$(OUT)/edges: tests/clib/edges.c tests/clib/premises.c $(CLIB_OBJECTS) $(OUT)/libcdb_c.a
	$(CC) -O2 -Wall -Wextra $(WERROR) -Iclib $(EXPORTS:%=-Wl,--wrap=cdb_c_%) -o $@ \
		tests/clib/edges.c tests/clib/premises.c $(CLIB_OBJECTS) $(OUT)/libcdb_c.a $(HEAP)

# What the tests load ahead of the C library, and a program that they run beside the command.
$(OUT)/refuse.so: tests/faults/refuse.c
	@mkdir -p $(OUT)
	$(CC) -O2 -Wall -shared -fPIC -o $@ $<

$(OUT)/orders: tests/cli/orders.c
	@mkdir -p $(OUT)
	$(CC) -O2 -Wall -Wextra -o $@ $<

$(OUT)/drawn: tests/drawn/drawn.cpp $(wildcard tests/drawn/*.h)
	@mkdir -p $(OUT)
	$(CXX) -std=c++17 -O2 -Wall -Wextra -o $@ $<
