//! The C interface, as `include/dervisclo.h` has it. The safe functions of this crate are the way to use it from Rust.

unsafe extern "C" {
    /// Prints one literal. Answers document 01's number: 0, or the refusal 1, 2, 7 or 8.
    ///
    /// `description` and `breaks` are 0 or 1; any other number is refused with 1. `length` receives the length written
    /// on 0, the needed length on 8, and 0 on any other refusal.
    ///
    /// # Safety
    ///
    /// `value`, `prefix` and `out` each point to as many bytes as the length beside them says, `out` to bytes that may
    /// be written; a pointer whose length is 0 may be null. `length` points to a number that may be written. What may
    /// be written overlaps nothing else. No length is over `isize::MAX`.
    ///
    /// ```
    /// let (mut out, mut length) = ([0; 8], 0);
    /// // SAFETY: each pointer comes with the length of the slice behind it; a null one with 0.
    /// let number = unsafe {
    ///     dervisclo::c::dervisclo_print_literal(
    ///         b"abc".as_ptr(), 3, 0, 1, std::ptr::null(), 0, 0, out.as_mut_ptr(), 8, &mut length,
    ///     )
    /// };
    /// assert_eq!((number, length, &out[..5]), (0, 5, &br#""abc""#[..]));
    /// ```
    pub fn dervisclo_print_literal(
        value: *const u8,
        value_len: usize,
        description: u32,
        breaks: u32,
        prefix: *const u8,
        prefix_len: usize,
        level: u64,
        out: *mut u8,
        out_len: usize,
        length: *mut u64,
    ) -> u32;

    /// Reads one literal. Answers document 01's number: 0, or the refusal 9 or 8.
    ///
    /// `length` is as in printing. `form` receives 1 for quoted or 2 for block on 0, and 0 on a refusal.
    ///
    /// # Safety
    ///
    /// As for printing: `text` and `out` point to as many bytes as their lengths say, `length` and `form` to numbers
    /// that may be written, and what may be written overlaps nothing else.
    ///
    /// ```
    /// let (mut out, mut length, mut form) = ([0; 8], 0, 0);
    /// let text = br#""abc""#;
    /// // SAFETY: each pointer comes with the length of the slice behind it.
    /// let number = unsafe {
    ///     dervisclo::c::dervisclo_read_literal(
    ///         text.as_ptr(), text.len(), out.as_mut_ptr(), 8, &mut length, &mut form,
    ///     )
    /// };
    /// assert_eq!((number, length, form, &out[..3]), (0, 3, 1, &b"abc"[..]));
    /// ```
    pub fn dervisclo_read_literal(
        text: *const u8,
        text_len: usize,
        out: *mut u8,
        out_len: usize,
        length: *mut u64,
        form: *mut u32,
    ) -> u32;

    /// Checks a node table. Answers document 01's number: 0, or the refusal 2 to 7.
    ///
    /// `words_len` counts words. `place` receives the smallest node with the fault on 3 to 7, and otherwise 0.
    ///
    /// # Safety
    ///
    /// `words` and `pool` each point to as many words, or bytes, as the length beside them says; a pointer whose length
    /// is 0 may be null. `place` points to a number that may be written and overlaps nothing else. No slice is over
    /// `isize::MAX` bytes.
    ///
    /// ```
    /// let words = [0, 0, 0, 0, 3, 1, 0, 0, 0, 3, 29, 0, 0, 1, 3];
    /// let mut place = 0;
    /// // SAFETY: each pointer comes with the length of the slice behind it.
    /// let number = unsafe {
    ///     dervisclo::c::dervisclo_check_table(words.as_ptr(), 15, b"1".as_ptr(), 1, &mut place)
    /// };
    /// assert_eq!((number, place), (7, 2));
    /// ```
    pub fn dervisclo_check_table(
        words: *const u32,
        words_len: usize,
        pool: *const u8,
        pool_len: usize,
        place: *mut u64,
    ) -> u32;

    /// The same for a document that is to be printed under these settings: 1, or the answer of the table's check.
    ///
    /// # Safety
    ///
    /// As for a table; `prefix` points to as many bytes as its length says.
    ///
    /// ```
    /// let words = [0, 0, 0, 0, 3, 1, 0, 0, 0, 3, 29, 0, 0, 1, 3];
    /// let mut place = 0;
    /// // SAFETY: each pointer comes with the length of the slice behind it; a null one with 0.
    /// let number = unsafe {
    ///     dervisclo::c::dervisclo_check_document(
    ///         1, std::ptr::null(), 0, 65, words.as_ptr(), 15, b"a".as_ptr(), 1, &mut place,
    ///     )
    /// };
    /// assert_eq!((number, place), (1, 0));
    /// ```
    pub fn dervisclo_check_document(
        breaks: u32,
        prefix: *const u8,
        prefix_len: usize,
        level: u64,
        words: *const u32,
        words_len: usize,
        pool: *const u8,
        pool_len: usize,
        place: *mut u64,
    ) -> u32;

    /// Prints a document. Answers document 01's number: 0, or the refusal 1 to 8.
    ///
    /// `place` receives the smallest node with the fault on 3 to 7, and otherwise 0. `length` receives the length
    /// written on 0, the needed length on 8, and 0 on any other refusal.
    ///
    /// # Safety
    ///
    /// As for the check of a document; `out` points to as many bytes as its length says, which may be written, and
    /// `length` to a number that may be written. What may be written overlaps nothing else.
    ///
    /// ```
    /// let words = [0, 0, 0, 0, 3, 1, 0, 0, 0, 3, 29, 0, 0, 1, 3];
    /// let (mut out, mut place, mut length) = ([0; 8], 0, 0);
    /// // SAFETY: each pointer comes with the length of the slice behind it; a null one with 0.
    /// let number = unsafe {
    ///     dervisclo::c::dervisclo_print_document(
    ///         0, std::ptr::null(), 0, 0, words.as_ptr(), 15, b"a".as_ptr(), 1, out.as_mut_ptr(), 8,
    ///         &mut place, &mut length,
    ///     )
    /// };
    /// assert_eq!((number, length, &out[..5]), (0, 5, &b"{ a }"[..]));
    /// ```
    pub fn dervisclo_print_document(
        breaks: u32,
        prefix: *const u8,
        prefix_len: usize,
        level: u64,
        words: *const u32,
        words_len: usize,
        pool: *const u8,
        pool_len: usize,
        out: *mut u8,
        out_len: usize,
        place: *mut u64,
        length: *mut u64,
    ) -> u32;
}
