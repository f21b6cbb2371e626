/* Byte addresses: 0 to 0xff are what a trap uses, letters between the supervisor and the outside, and the registers; 0x1000 to 0x7fff
   what the program wrote; 0x8000 to 0xffff its input; from 0x10000 on the program, its heap and its stack. `--defsym=memory=N` says
   where the memory ends and the stack begins, a power of two, at most 0x200000: 0x100000 where it is not said. */
ENTRY(_start)
PHDRS { text PT_LOAD FLAGS(5); data PT_LOAD FLAGS(7); tls PT_TLS; }
SECTIONS
{
  . = 0x10000;
  .text : {
    KEEP(*(.init.pgv))
    *(.text.unlikely .text.startup .text .text.*)
    *(.rodata .rodata.* .srodata .srodata.*)
    . = ALIGN(4);
    __init_array_start = .;
    KEEP(*(SORT_BY_INIT_PRIORITY(.init_array.*)))
    KEEP(*(.init_array .ctors))
    __init_array_end = .;
  } :text
  . = ALIGN(16);
  .data : { *(.data .data.*) . = ALIGN(8); __global_pointer$ = . + 0x800; *(.sdata .sdata.* .sdata2.*) } :data
  .tdata : { *(.tdata .tdata.*) } :data :tls
  __tls_base = ADDR(.tdata);
  .tbss (NOLOAD) : { *(.tbss .tbss.*) *(.tcommon) } :data :tls
  .tbss_space (NOLOAD) : { . = ADDR(.tbss); . = . + SIZEOF(.tbss); } :data
  .bss (NOLOAD) : { *(.sbss .sbss.* .bss .bss.* COMMON) . = ALIGN(16); } :data
  _end = .;
  end = .;
  __heap_start = .;
  __stack = DEFINED(memory) ? memory : 0x100000;
  __heap_end = __stack - 0x4000;
  .heap (NOLOAD) : { . = ALIGN(DEFINED(memory) ? memory : 0x100000); } :data
  /DISCARD/ : { *(.comment .note .note.* .riscv.attributes .eh_frame .eh_frame_hdr) }
}
