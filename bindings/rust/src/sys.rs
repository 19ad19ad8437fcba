//! The exported functions, as `include/lgt_linker.h` declares them.

unsafe extern "C" {
    pub fn lgt_read_class_sheet(bytes: *const u8, bytes_len: usize, words: *mut u32, words_len: usize, answer: *mut [u32; 1]) -> u32;

    pub fn lgt_read_abi_sheet(bytes: *const u8, bytes_len: usize, words: *mut u32, words_len: usize, answer: *mut [u32; 1]) -> u32;

    pub fn lgt_write_class_sheet(set: *const u32, set_len: usize, bytes: *mut u8, bytes_len: usize, answer: *mut [u32; 1]) -> u32;

    pub fn lgt_widen_class_sheet(bytes: *const u8, bytes_len: usize, out: *mut u8, out_len: usize, answer: *mut [u32; 1]) -> u32;

    pub fn lgt_narrow_class_sheet(bytes: *const u8, bytes_len: usize, out: *mut u8, out_len: usize, answer: *mut [u32; 1]) -> u32;

    pub fn lgt_read_unordered_sheet(bytes: *const u8, bytes_len: usize, words: *mut u32, words_len: usize, answer: *mut [u32; 1]) -> u32;

    pub fn lgt_renumber_classes(set: *mut u32, set_len: usize, order: *mut u32, order_len: usize, answer: *mut [u32; 1]) -> u32;

    pub fn lgt_number_signatures(
        set: *const u32,
        set_len: usize,
        abi: *const u32,
        abi_len: usize,
        numbers: *mut u32,
        numbers_len: usize,
    ) -> u32;

    pub fn lgt_link(
        set: *mut u32,
        set_len: usize,
        abi: *const u32,
        abi_len: usize,
        numbers: *mut u32,
        numbers_len: usize,
        class: u32,
        area: *mut u32,
        area_len: usize,
        stubs: *const u32,
        stubs_len: usize,
        missing: *mut u32,
        missing_len: usize,
        answer: *mut [u32; 2],
    ) -> u32;

    pub fn lgt_missing_slots(
        set: *const u32,
        set_len: usize,
        abi: *const u32,
        abi_len: usize,
        missing: *const u32,
        missing_len: usize,
        class: u32,
        answer: *mut [u32; 1],
    ) -> u32;

    pub fn lgt_interface_dispatch_table(
        set: *const u32,
        set_len: usize,
        abi: *const u32,
        abi_len: usize,
        numbers: *const u32,
        numbers_len: usize,
        class: u32,
        interface: u32,
        area: *mut u32,
        area_len: usize,
        stubs: *const u32,
        stubs_len: usize,
        answer: *mut [u32; 2],
    ) -> u32;

    pub fn lgt_argument_words(descriptor: *const u8, descriptor_len: usize, flags: u32, answer: *mut [u64; 1]) -> u32;

    pub fn lgt_compare_names(a: *const u8, a_len: usize, b: *const u8, b_len: usize, answer: *mut [u64; 2]) -> u32;

    pub fn lgt_reference_words(
        bitmap: *const u8,
        bitmap_len: usize,
        words: u32,
        list: *mut u32,
        list_len: usize,
        answer: *mut [u32; 1],
    ) -> u32;

    pub fn lgt_reference_count(bitmap: *const u8, bitmap_len: usize, words: u32, answer: *mut [u32; 1]) -> u32;

    pub fn lgt_read_class_file(
        bytes: *const u8,
        bytes_len: usize,
        targets: *const u32,
        targets_len: usize,
        fields: *mut u32,
        fields_len: usize,
        methods: *mut u32,
        methods_len: usize,
        text: *mut u32,
        text_len: usize,
        answer: *mut [u32; 6],
    ) -> u32;

    pub fn lgt_class_file_head(bytes: *const u8, bytes_len: usize, answer: *mut [u32; 6]) -> u32;
}
