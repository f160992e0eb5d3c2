/* Where a program stands in the machine: its code from 0x10000 on, and its data with the heap behind it. The stack is the
   machine's, below 0xC0000000. */
OUTPUT_ARCH(riscv)
ENTRY(_start)

PHDRS {
    code PT_LOAD FLAGS(5);
    data PT_LOAD FLAGS(6);
    thread PT_TLS FLAGS(4);
}

SECTIONS {
    . = 0x10000;
    .text : {
        KEEP(*(.text.start))
        *(.text .text.*)
        *(.rodata .rodata.* .srodata .srodata.*)
    } :code

    . = ALIGN(0x1000);
    .init_array : {
        __preinit_array_start = .;
        KEEP(*(.preinit_array))
        __preinit_array_end = .;
        __init_array_start = .;
        KEEP(*(SORT_BY_INIT_PRIORITY(.init_array.*)))
        KEEP(*(.init_array))
        __init_array_end = .;
        __fini_array_start = .;
        KEEP(*(SORT_BY_INIT_PRIORITY(.fini_array.*)))
        KEEP(*(.fini_array))
        __fini_array_end = .;
    } :data

    .tdata ALIGN(16) : {
        __tls_start = .;
        *(.tdata .tdata.*)
    } :data :thread
    .tbss : {
        *(.tbss .tbss.*)
    } :data :thread
    .tbss_room (NOLOAD) : {
        . += SIZEOF(.tbss);
    } :data

    .data : {
        *(.data .data.*)
        . = ALIGN(8);
        __global_pointer$ = . + 0x800;
        *(.sdata .sdata.*)
    } :data
    .bss : {
        *(.sbss .sbss.*)
        *(.bss .bss.[!.]* COMMON)
        *(.bss..heap)
    } :data

    /DISCARD/ : {
        *(.eh_frame .eh_frame.* .note .note.* .comment .riscv.attributes)
    }
}
