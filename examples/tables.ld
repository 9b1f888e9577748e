/* The program in 64 MiB of memory: its code first, its stack in the last MiB, and the heap between. */
OUTPUT_ARCH(riscv)
ENTRY(_start)

MEMORY
{
    memory : ORIGIN = 0x80000000, LENGTH = 64M
}

SECTIONS
{
    .text : { *(.text.start) *(.text .text.*) } > memory
    .rodata : { *(.rodata .rodata.* .srodata .srodata.*) } > memory
    .data : ALIGN(16) {
        *(.data .data.*)
        __global_pointer$ = . + 0x800;
        *(.sdata .sdata.*)
    } > memory
    /* the thread's variables begin as zero, and stand at the end of the others that do */
    .tdata : { *(.tdata .tdata.*) } > memory
    .tbss : { *(.tbss .tbss.*) } > memory
    .bss (NOLOAD) : {
        *(.sbss .sbss.*)
        *(.bss .bss.* COMMON)
        . = ALIGN(16);
        thread_start = .;
        . += SIZEOF(.tbss);
    } > memory
    __heap_start = ALIGN(16);
    __heap_end = ORIGIN(memory) + LENGTH(memory) - 1M;
    stack_top = ORIGIN(memory) + LENGTH(memory);
    ASSERT(SIZEOF(.tdata) == 0, "thread variables with values are not set up")
}
