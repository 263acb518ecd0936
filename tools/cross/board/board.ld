/* Memory of the emulated boards: code from 0, data in 4 MB from 0x20000000, the stack from their end down. */
ENTRY(_start)
MEMORY {
    rom (rx) : ORIGIN = 0, LENGTH = 256K
    ram (rw) : ORIGIN = 0x20000000, LENGTH = 4M
}
SECTIONS {
    .text : {
        KEEP(*(.vectors))
        *(.text*) *(.rodata*) KEEP(*(.init)) KEEP(*(.fini))
        . = ALIGN(4);
        __preinit_array_start = .; KEEP(*(.preinit_array)) __preinit_array_end = .;
        __init_array_start = .; KEEP(*(.init_array*)) __init_array_end = .;
        __fini_array_start = .; KEEP(*(.fini_array*)) __fini_array_end = .;
    } > rom
    .ARM.exidx : { __exidx_start = .; *(.ARM.exidx*) __exidx_end = .; } > rom
    .data : { *(.data*) } > ram
    .bss : { __bss_start__ = .; *(.bss*) *(COMMON) . = ALIGN(8); __bss_end__ = .; end = .; __end__ = .; } > ram
    stack_top = ORIGIN(ram) + LENGTH(ram);
    __stack = stack_top;
}
