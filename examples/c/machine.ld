/* Code at 0, shared data at 0x40000000, and the stacks behind them. examples/c/build gives shared_end, contexts, stack_mark and yields_at_home,
   and puts the mark under each stack. Where yield loads from lines of the node itself, which stand at whole KiB, a stack is 256 or 512 bytes or
   some KiB: so those of these lines that are behind the data are a stack's mark, or a KiB below its beginning at least, or not used at all. */
ENTRY(start)
SECTIONS
{
    .text 0 : { KEEP(*(.text.start)) *(.text .text.*) . = ALIGN(4); }
    . = 0x40000000;
    PROVIDE(yield_words = .);
    .data : { *(.rodata .rodata.* .data .data.*) }
    .bss : { *(.bss .bss.* COMMON) }
    data_end = ALIGN(16);
    room = data_end < shared_end ? ((shared_end - data_end) / contexts) & ~15 : 0;
    stack_size = !yields_at_home ? room : room >= 1024 ? room & ~1023 : room >= 512 ? 512 : room & 256;

    /* Any section that isn't named here is refused: the image wouldn't have it. */
    .debug_abbrev 0 : { *(.debug_abbrev) }
    .debug_aranges 0 : { *(.debug_aranges) }
    .debug_assertions 0 : { *(.debug_assertions) }
    .debug_frame 0 : { *(.debug_frame) }
    .debug_info 0 : { *(.debug_info) }
    .debug_line 0 : { *(.debug_line) }
    .debug_line_str 0 : { *(.debug_line_str) }
    .debug_loclists 0 : { *(.debug_loclists) }
    .debug_rnglists 0 : { *(.debug_rnglists) }
    .debug_str 0 : { *(.debug_str) }
    /DISCARD/ : { *(.comment) *(.note*) *(.eh_frame*) *(.gnu.attributes) *(.iplt) *(.rela.*) }
}
