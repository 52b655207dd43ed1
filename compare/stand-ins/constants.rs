// Stands for the two tables of kind numbers in gimli's `constants` module.
// It can't change an answer: the names are bound to the numbers of DWARF 5,
// 7.25 (ranges) and 7.7.3 (locations), the same as in the scope's table, and
// a number without a name is carried along as it is.

#![allow(non_upper_case_globals)]

macro_rules! kinds {
    ($holder:ident: $($name:ident is $number:literal,)*) => {
        #[derive(Debug, Clone, Copy, PartialEq, Eq)]
        pub struct $holder(pub u8);
        $(pub const $name: $holder = $holder($number);)*
    };
}

kinds! { DwRle:
    DW_RLE_end_of_list is 0,
    DW_RLE_base_addressx is 1,
    DW_RLE_startx_endx is 2,
    DW_RLE_startx_length is 3,
    DW_RLE_offset_pair is 4,
    DW_RLE_base_address is 5,
    DW_RLE_start_end is 6,
    DW_RLE_start_length is 7,
}

kinds! { DwLle:
    DW_LLE_end_of_list is 0,
    DW_LLE_base_addressx is 1,
    DW_LLE_startx_endx is 2,
    DW_LLE_startx_length is 3,
    DW_LLE_offset_pair is 4,
    DW_LLE_default_location is 5,
    DW_LLE_base_address is 6,
    DW_LLE_start_end is 7,
    DW_LLE_start_length is 8,
}
