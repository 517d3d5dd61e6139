/* Where a native program has its parts: the code of the image at its address, and the runtime in
   the gap between the greatest code and the data, which no segment of the image reaches. The
   image is the first part, and the runtime begins with its sizes: build.py counts on that. */
ENTRY(_start)
PHDRS
{
    image PT_LOAD FLAGS(5);
    text PT_LOAD FLAGS(5);
    data PT_LOAD FLAGS(6);
    stack PT_GNU_STACK FLAGS(6);
}
SECTIONS
{
    . = 0x01000000;
    .image : { *(.image) } :image
    . = 0x03900000;
    .text : { *(.sizes) *(.text .text.* .rodata .rodata.*) } :text
    . = ALIGN(4096);
    .data : { *(.data .data.*) } :data
    .bss : { *(.bss .bss.*) } :data
    ASSERT(. <= 0x04000000, "the runtime ends below the data")
    /DISCARD/ : { *(.note*) *(.comment) *(.eh_frame*) }
}
