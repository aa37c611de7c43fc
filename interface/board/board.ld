/* A Cortex-M: flash, a list of stores in flash behind the program, and `memory` bytes of RAM. interface/board/image says where each
   begins. The stack is at the foot of RAM, below which there is nothing: one that is too deep faults. What is above it is kept. */
MEMORY {
    FLASH (rx)  : ORIGIN = flash_at, LENGTH = 128K
    LIST (r)    : ORIGIN = flash_at + 128K, LENGTH = 896K
    RAM (rw)    : ORIGIN = ram_at, LENGTH = memory
}
list = ORIGIN(LIST);
stack_foot = ORIGIN(RAM);
stack_top = stack_foot + LENGTH(RAM) - SIZEOF(.state);
ENTRY(reset)
SECTIONS {
    .text : { KEEP(*(.vectors)) *(.text*) } > FLASH
    .rodata : { *(.rodata*) } > FLASH
    .state stack_top (NOLOAD) : { *(.bss* COMMON) } > RAM
    .data : { *(.data*) } > RAM
    /DISCARD/ : { *(.ARM.exidx*) }
}
ASSERT(SIZEOF(.data) == 0, "data that must be copied from flash")
