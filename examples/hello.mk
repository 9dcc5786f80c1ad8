# Builds hello; config.mk has the settings.
include config.mk

OBJS = main.o \
       greet.o

all: hello

hello: $(OBJS) | build
	$(CC) $(CFLAGS) -o build/$@ $(OBJS)

ifdef DEBUG
CFLAGS += -g  # and no strip
endif

build:
	mkdir -p $@

.PHONY: all clean
clean:
	rm -f $(OBJS)

# Cleans, and strips what is installed.
clean-strip: clean ; $(STRIP) $(BINDIR)/hello
