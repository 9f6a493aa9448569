/* libc.ld - where a program with a C library lies in RAM: from PLACE on, with HEAP bytes for malloc at its end */

ENTRY(_start)

PHDRS
{
	text PT_LOAD FLAGS(5);
	data PT_LOAD FLAGS(6);
	note PT_NOTE FLAGS(4);
}

SECTIONS
{
	. = PLACE;
	.text : { KEEP(*(.text.start)) *(.text .text.*) } :text
	.rodata : { *(.rodata .rodata.* .srodata .srodata.*) } :text
	.note.xinu : ALIGN(4) { KEEP(*(.note.xinu)) } :text :note
	. = ALIGN(PAGE);
	.init_array : ALIGN(4) {
		__preinit_array_start = .;
		KEEP(*(.preinit_array))
		__preinit_array_end = .;
		__init_array_start = .;
		KEEP(*(SORT_BY_INIT_PRIORITY(.init_array.*) .init_array .ctors))
		__init_array_end = .;
		__fini_array_start = .;
		KEEP(*(SORT_BY_INIT_PRIORITY(.fini_array.*) .fini_array .dtors))
		__fini_array_end = .;
	} :data
	.data : ALIGN(16) { *(.data .data.* .sdata .sdata.*) } :data
	.tdata : ALIGN(16) { *(.tdata .tdata.*) } :data
	.tbss : { *(.tbss .tbss.* .tcommon) } :data
	__tdata_source = ADDR(.tdata);
	__tdata_size = SIZEOF(.tdata);
	__tbss_offset = ADDR(.tbss) - ADDR(.tdata);
	__tbss_size = SIZEOF(.tbss);
	__tls_size = __tbss_offset + __tbss_size;
	.bss : ALIGN(16) {
		*(.bss .bss.* .sbss .sbss.* COMMON)
		. = ALIGN(16);
		__tls_main = .;
		. += SIZEOF(.tdata) + SIZEOF(.tbss) + 16;
		. = ALIGN(16);
		__heap_start = .;
		. += HEAP;
		__heap_end = .;
	} :data
	/DISCARD/ : { *(.comment) *(.eh_frame*) *(.riscv.attributes) *(.note.*) }
}
