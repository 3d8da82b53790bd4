# Objects of the C files beside it, and with C=1 a run of cqual before each: make -f check.mk C=1 helper.o
# A compiler does not know the words of a lattice; defined as nothing they say nothing to it.
CHECK = cqual-cc --lattice kernel.q --prelude kernel.h --
CFLAGS = -O2 -Wall

%.o: %.c
	$(if $(C),$(CHECK) $(CFLAGS) -c -o $@ $<)
	$(CC) '-D$$user=' $(CFLAGS) -c -o $@ $<
