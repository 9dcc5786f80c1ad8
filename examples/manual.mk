# Builds hello.
CC = gcc   # compiler
CFLAGS = -O2 \
         -Wall
ifdef DEBUG
LDFLAGS =
else
LDFLAGS = -s
endif

.PHONY: all clean
all: hello
hello: main.o greet.o | build
	$(CC) $(CFLAGS) -o build/$@ main.o greet.o
build cache:
	mkdir -p build cache
clean:
	rm -f main.o greet.o
	rm -rf build
