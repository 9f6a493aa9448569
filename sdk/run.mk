# run.mk - what xinu.mk and libc/libc.mk share: the limit of a program's file, and what runs the programs of a Makefile
#
#	make run	runs them together, through schedule.txt if there is one
#	make why	tells the run in words
#	make gdb	starts gdb on it
#	make picture	draws it into run.svg
#
# ASSEMBLED names programs in assembler, each a file NAME.s, which run beside the others. A Makefile of programs that don't run
# together names one as PROGRAM, and another is run by `make run PROGRAM=NAME`. RUN is what follows `xinu run`.

RUN ?= $(addprefix --schedule ,$(wildcard schedule.txt)) $(addsuffix .elf,$(or $(PROGRAM),$(PROGRAMS))) $(ASSEMBLED:=.s)

# xinu_run takes files of at most 1048576 bytes: of a larger one what a debugger reads is kept in NAME.debug alone.
XFIT = rm -f $(@:.elf=.debug); test $$(wc -c < $@) -le 1048576 || { cp $@ $(@:.elf=.debug) && $(CROSS)strip -g $@; }

.PHONY: run why gdb picture
run why gdb: all
	@$(SDK)xinu $@ $(RUN)

picture: all
	@$(SDK)xinu picture --out run.svg $(RUN)
