/* Code from 0; a stack of 64 KiB and the buffers from 20000000. */
ENTRY(start)
SECTIONS
{
    .text 0 : { KEEP(*(.vectors)) *(.text*) *(.rodata*) }
    .ARM.exidx : { *(.ARM.exidx*) }
    .bss 0x20000000 (NOLOAD) : {
        stack_low = .; . += 65536; stack_top = .;
        bss_low = .; *(.bss*) *(COMMON) bss_top = .;
    }
    .lost : { *(.data*) }
    ASSERT(SIZEOF(.lost) == 0, "data with a first value would have to be copied")
}
