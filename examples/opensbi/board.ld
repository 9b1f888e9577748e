/* fw_jump.bin goes on at 0x80200000 and wants the tree at 0x82200000; below 0x80100000 memory is its own. */
ENTRY(_start)
PHDRS
{
    firmware PT_LOAD;
    entry PT_LOAD;
    payload PT_LOAD;
    tree PT_LOAD;
}
SECTIONS
{
    firmware = 0x80000000;
    tree = 0x82200000;
    .firmware 0x80000000 : { *(.firmware) } : firmware
    .entry 0x80100000 : { *(.entry) } : entry
    .payload 0x80200000 : { *(.payload) } : payload
    .tree 0x82200000 : { *(.tree) } : tree
    /DISCARD/ : { *(.riscv.attributes) }
}
