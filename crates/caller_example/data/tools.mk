# Tools of a small program
CC = cc   # the compiler
CFLAGS = -O2 \
  -Wall

ifdef DEBUG
OPTIMIZE = -O0
else
OPTIMIZE = -O3
endif
export CC ?= gcc

define NOTE
CC = a body, and no assignment
endef

prog: main.o util.o
	$(CC) $(OPTIMIZE) -o $@ $^
prog: LIMIT = 4

clean distclean:
	rm -f prog main.o

# the last line has no line end
clean: tidy