# xinu.mk - what the Makefile of a program in C includes
#
# The Makefile names its programs, each a file NAME.c, and includes this:
#
#	PROGRAMS = sender receiver
#	receiver.elf: PLACE = 0x10000
#	include ../../sdk/xinu.mk
#
# PLACE is where a program lies in RAM, 0 if it isn't said. Two programs of one run may not overlap.
#
# `make run`, `make why`, `make gdb` and `make picture` run the programs together (run.mk), and `make check` runs the program of a
# lab and says how far it is done.
# What a program has beside NAME.c, sources, objects or libraries, is named as what it is made from:
#
#	sender.elf: queue.c table.o libqueue.a
#	sender.elf: LDLIBS = -L../lib -ltable

SDK := $(dir $(lastword $(MAKEFILE_LIST)))
CROSS ?= riscv64-unknown-elf-
PLACE ?= 0
JUDGE ?= $(SDK)lab schedule.txt lines.txt $(PROGRAMS:=.elf)

# No variable is addressed by gp, which is 0 in a new process: so -msmall-data-limit=0.
XFLAGS = -march=rv32i -mabi=ilp32 -msmall-data-limit=0 -g -O2 -Wall -Wextra -std=gnu11 \
	-ffreestanding -fno-tree-loop-distribute-patterns -fno-asynchronous-unwind-tables \
	-nostdlib -static -I$(SDK) $(CFLAGS)
XLINK = -T $(SDK)xinu.ld -Wl,--defsym=PLACE=$(PLACE) -Wl,--build-id=none -Wl,-z,max-page-size=4

.SUFFIXES:
.PHONY: all check clean

.DEFAULT_GOAL := all
all: $(PROGRAMS:=.elf)

include $(SDK)run.mk

%.elf: %.c $(SDK)start.S $(SDK)xinu.c $(SDK)xinu.h $(SDK)xinu.ld $(SDK)xinu.mk
	$(CROSS)gcc $(XFLAGS) $(XLINK) -o $@ $(filter %.c %.s %.S %.o %.a,$^) $(LDLIBS) -lgcc
	@$(XFIT)

%.o: %.c $(SDK)xinu.h
	$(CROSS)gcc $(XFLAGS) -c -o $@ $<

# A lab has a schedule and a table: what the console showed, how the run ended, and what is wrong.
check: all
	@$(JUDGE)

clean:
	rm -f $(PROGRAMS:=.elf) $(PROGRAMS:=.debug) *.xim *.o
