# The signatures of the library once, and each program against them: make -j -f signed.mk
LIBRARY = subject.c print.c

all: show.checked send.checked

libletter.signatures: $(LIBRARY) letter.h
	cqual-cc --signatures -- $(CFLAGS) $(LIBRARY) > $@.new
	mv $@.new $@

%.checked: %.c letter.h libletter.signatures
	cqual-cc --style=gcc --prelude taint.h --prelude libletter.signatures -- $(CFLAGS) $<
	touch $@

clean:
	rm -f *.signatures *.signatures.new *.checked
