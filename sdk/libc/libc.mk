# libc.mk - what the Makefile of a program with a C library includes
#
# The Makefile names its programs, and what each is made from beside NAME.c, if there is one:
#
#	PROGRAMS = lua
#	lua.elf: lapi.o lcode.o
#	lua.elf: ARGS = "lua", "test.lua"
#	lua.elf: HEAP = 300000
#	include ../../sdk/libc/libc.mk
#
# ARGS is argv, HEAP how many bytes malloc has, STACK the bytes of the stack, PRIORITY the first process's, PLACE where the
# program lies in RAM. With ECHO = 0 the console shows nothing of what is typed. LDLIBS are libraries, CFLAGS more options.
# `make run` and its like run the programs (../run.mk).

LIBC := $(dir $(lastword $(MAKEFILE_LIST)))
SDK := $(LIBC)../
CROSS ?= riscv64-unknown-elf-
PLACE ?= 0
HEAP ?= 65536
STACK ?= 16384
PRIORITY ?= 20
ARGS ?= "$*"
ECHO ?= 1
OPT ?= -O2
WARN ?= -Wall -Wextra

# The library's default build is for size; that of the type `release` is three times as fast.
XTARGET = --specs=picolibc.specs --picolibc-buildtype=release -march=rv32i -mabi=ilp32 -msmall-data-limit=0
XFLAGS = $(XTARGET) -g $(OPT) $(WARN) -fno-asynchronous-unwind-tables -ffunction-sections -fdata-sections -I$(LIBC) -I$(SDK) $(CFLAGS)
XSTART = -DSTACK=$(STACK) -DPRIORITY=$(PRIORITY) -DECHO=$(ECHO) '-DARGS=$(ARGS)'
XLINK = -nostartfiles -static -DPICOLIBC_DOUBLE_PRINTF_SCANF -T $(LIBC)libc.ld -Wl,--defsym=PLACE=$(PLACE),--defsym=HEAP=$(HEAP) \
	-Wl,--defsym=PAGE=4,--gc-sections,--build-id=none,-z,max-page-size=4
XPARTS = $(LIBC)start.S $(LIBC)main.c $(LIBC)files.c $(LIBC)spawn.c

.SUFFIXES:
.SECONDARY:
.PHONY: all clean

.DEFAULT_GOAL := all
all: $(PROGRAMS:=.elf)

include $(SDK)run.mk

%.elf: %.c $(XPARTS) $(LIBC)xcalls.h $(LIBC)libc.ld $(LIBC)libc.mk $(SDK)xinu.h
	$(CROSS)gcc $(XFLAGS) $(XSTART) $(XLINK) -o $@ $(filter %.c %.s %.S %.o %.a,$^) $(LDLIBS) -lm
	@$(XFIT)

%.elf: $(XPARTS) $(LIBC)xcalls.h $(LIBC)libc.ld $(LIBC)libc.mk $(SDK)xinu.h
	$(CROSS)gcc $(XFLAGS) $(XSTART) $(XLINK) -o $@ $(filter %.c %.s %.S %.o %.a,$^) $(LDLIBS) -lm
	@$(XFIT)

%.o: %.c
	$(CROSS)gcc $(XFLAGS) -c -o $@ $<

clean:
	rm -f $(PROGRAMS:=.elf) $(PROGRAMS:=.debug) *.o
