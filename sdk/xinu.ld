/* xinu.ld - where a program lies in RAM: from PLACE on, which the command line of the linker says */

ENTRY(_start)

PHDRS
{
	text PT_LOAD FLAGS(5);
	data PT_LOAD FLAGS(6);
	note PT_NOTE FLAGS(4);
}

SECTIONS
{
	. = PLACE;
	.text : { KEEP(*(.text.start)) *(.text .text.*) } :text
	.rodata : { *(.rodata .rodata.* .srodata .srodata.*) } :text
	.init_array : ALIGN(4) {
		__init_array_start = .;
		KEEP(*(SORT_BY_INIT_PRIORITY(.init_array.*) .init_array))
		__init_array_end = .;
	} :text
	.note.xinu : ALIGN(4) { KEEP(*(.note.xinu)) } :text :note
	.data : { *(.data .data.* .sdata .sdata.*) } :data
	.tdata : { *(.tdata .tdata.*) } :data
	.tbss : { *(.tbss .tbss.* .tcommon) } :data
	.bss : { *(.bss .bss.* .sbss .sbss.* COMMON) } :data
	/DISCARD/ : { *(.comment) *(.eh_frame*) *(.riscv.attributes) *(.note.*) *(.fini_array*) }
}

ASSERT(SIZEOF(.tdata) + SIZEOF(.tbss) == 0, "a thread-local variable needs sdk/libc: tp is 0 here")
