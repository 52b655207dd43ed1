# A unit of DWARF 5 by hand, for what no compiler writes: default locations, before another and behind it, locations that overlap,
# and, by the symbols that the assembler is given, an attribute that is missing (NO_..), a list that is refused (BAD_KIND), also
# behind a default location (BAD_END), another address size (THREE_BYTES), LEB128 numbers with a byte more than they need (PADDED),
# or codes for the kinds of range list entries that are so much above DWARF's (CODES).

        .ifndef CODES
        .set    CODES, 0
        .endif

        .macro  number value            # a LEB128 number below 0x80
        .ifdef  PADDED
        .byte   \value | 0x80, 0
        .else
        .uleb128 \value
        .endif
        .endm

        .text
        .globl  _start
_start: .fill   0x20, 1, 0x90

        .section .debug_abbrev,"",@progbits
        .uleb128 1, 0x11                # DW_TAG_compile_unit
        .byte   1
        .uleb128 0x03, 0x08             # DW_AT_name, DW_FORM_string
        .ifndef NO_LOW_PC
        .uleb128 0x11, 0x01             # DW_AT_low_pc, DW_FORM_addr
        .endif
        .ifndef NO_ADDR_BASE
        .uleb128 0x73, 0x17             # DW_AT_addr_base, DW_FORM_sec_offset
        .endif
        .ifndef NO_RNGLISTS_BASE
        .uleb128 0x74, 0x17             # DW_AT_rnglists_base, DW_FORM_sec_offset
        .endif
        .ifndef NO_LOCLISTS_BASE
        .uleb128 0x8c, 0x17             # DW_AT_loclists_base, DW_FORM_sec_offset
        .endif
        .uleb128 0, 0
        .uleb128 2, 0x2e                # DW_TAG_subprogram
        .byte   1
        .uleb128 0x03, 0x08             # DW_AT_name, DW_FORM_string
        .uleb128 0x55, 0x23             # DW_AT_ranges, DW_FORM_rnglistx
        .uleb128 0, 0
        .uleb128 3, 0x34                # DW_TAG_variable
        .byte   0
        .uleb128 0x03, 0x08             # DW_AT_name, DW_FORM_string
        .uleb128 0x02, 0x22             # DW_AT_location, DW_FORM_loclistx
        .uleb128 0, 0
        .byte   0

        .section .debug_info,"",@progbits
        .long   2f - 1f
1:      .short  5
        .byte   1                       # DW_UT_compile
        .ifdef  THREE_BYTES
        .byte   3                       # addresses of 3 bytes, though what follows has 8
        .else
        .byte   8                       # addresses of 8 bytes
        .endif
        .long   .debug_abbrev
        .uleb128 1
        .asciz  "lists.s"
        .ifndef NO_LOW_PC
        .quad   _start
        .endif
        .ifndef NO_ADDR_BASE
        .long   addresses
        .endif
        .ifndef NO_RNGLISTS_BASE
        .long   range_offsets
        .endif
        .ifndef NO_LOCLISTS_BASE
        .long   location_offsets
        .endif
        .uleb128 2
        .asciz  "routine"
        .uleb128 0
        .uleb128 3
        .asciz  "value"
        .uleb128 0
        .uleb128 3
        .asciz  "late"
        .uleb128 1
        .uleb128 3
        .asciz  "spare"
        .uleb128 2
        .byte   0, 0
2:

        .section .debug_addr,"",@progbits
        .long   2f - 1f
1:      .short  5
        .byte   8, 0
addresses:
        .quad   _start
2:

        .section .debug_rnglists,"",@progbits
        .long   2f - 1f
1:      .short  5
        .byte   8, 0
        .long   1
range_offsets:
        .long   3f - range_offsets
3:
        .ifndef LEAN_ON_THE_UNIT
        .byte   CODES + 1               # DW_RLE_base_addressx
        number  0
        .endif
        .byte   CODES + 4               # DW_RLE_offset_pair
        .uleb128 0
        number  0x20
        .byte   CODES                   # DW_RLE_end_of_list
2:

        .section .debug_loclists,"",@progbits
        .long   2f - 1f
1:      .short  5
        .byte   8, 0
        .long   3
location_offsets:
        .long   3f - location_offsets
        .long   4f - location_offsets
        .long   5f - location_offsets
3:      .byte   5                       # DW_LLE_default_location: DW_OP_reg0
        .uleb128 1
        .byte   0x50
        .byte   1                       # DW_LLE_base_addressx
        number  0
        .byte   4                       # DW_LLE_offset_pair: DW_OP_reg5
        .uleb128 0, 8
        number  1
        .byte   0x55
        .byte   4                       # DW_LLE_offset_pair: DW_OP_reg4
        .uleb128 4, 8, 1
        .byte   0x54
        .ifdef BAD_END
        .byte   9
        .endif
        .byte   0                       # DW_LLE_end_of_list
4:
        .ifdef BAD_KIND
        .byte   9
        .endif
        .byte   8                       # DW_LLE_start_length: DW_OP_addrx
        .quad   _start + 0x10
        .uleb128 8, 2
        .byte   0xa1, 0
        .byte   0                       # DW_LLE_end_of_list
5:      .byte   5                       # DW_LLE_default_location: DW_OP_reg8
        .uleb128 1
        .byte   0x58
        .byte   8                       # DW_LLE_start_length: DW_OP_reg9
        .quad   _start + 0x18
        .uleb128 4, 1
        .byte   0x59
        .byte   5                       # DW_LLE_default_location: DW_OP_reg10
        .uleb128 1
        .byte   0x5a                    # and the section's end
2:
