//! The library's C functions, and every unsafe call. None of the functions keeps an address, allocates or has a state,
//! so several threads may call them at once.

unsafe extern "C" {
    // Numbers go in, and the answer goes to the place that the caller borrows for it alone. Nothing else is asked of a
    // caller, and any numbers are answered or refused: these are safe as they stand.

    #[link_name = "fieldbook_single_tariff"]
    pub safe fn single_tariff(c1: i32, c2: i32, c3: i32, c4: i32, cm: u64, tenths: u64, answer: &mut u64) -> u8;

    #[link_name = "fieldbook_line_tariff"]
    pub safe fn line_tariff(sum: u64, number: u64, answer: &mut u64) -> u8;

    #[link_name = "fieldbook_mean"]
    pub safe fn mean(n: u64, squares: u64, answer: &mut u64) -> u8;

    #[link_name = "fieldbook_trees"]
    pub safe fn trees(n: u64, p: u64, q: u64, answer: &mut u64) -> u8;

    #[link_name = "fieldbook_stem"]
    pub safe fn stem(tariff: u64, d: u64, factor: u64, gravity: u64, answer: &mut [u64; 2]) -> u8;

    #[link_name = "fieldbook_crown"]
    pub safe fn crown(group: u64, d: u64, answer: &mut [u64; 2]) -> u8;

    #[link_name = "fieldbook_root"]
    pub safe fn root(group: u64, d: u64, answer: &mut [u64; 2]) -> u8;

    #[link_name = "fieldbook_tree"]
    pub safe fn tree(
        tariff: u64,
        d: u64,
        factor: u64,
        gravity: u64,
        crown: u64,
        root: u64,
        answer: &mut [u64; 2],
    ) -> u8;

    #[link_name = "fieldbook_row"]
    pub safe fn row(
        trees: u64,
        tariff: u64,
        d: u64,
        factor: u64,
        gravity: u64,
        crown: u64,
        root: u64,
        answer: &mut [u64; 2],
    ) -> u8;

    #[link_name = "fieldbook_small_trees"]
    pub safe fn small_trees(number: u64, carbon: u64, answer: &mut [u64; 2]) -> u8;

    #[link_name = "fieldbook_project"]
    pub safe fn project(low: u64, high: u64, trees: u64, answer: &mut [u64; 2]) -> u8;

    #[link_name = "fieldbook_square_root"]
    pub safe fn square_root(x: u64, root: &mut u64, square: &mut u64);

    // These take a slice as its address and its length, which a caller could give of two different slices.

    fn fieldbook_total(
        book: *const u8,
        book_length: usize,
        sheet: *mut u8,
        sheet_length: usize,
        answer: &mut [u64; 5],
    ) -> u8;
    fn fieldbook_sheet_row(sheet: *const u8, sheet_length: usize, i: usize, answer: &mut [u64; 7]) -> u8;
    fn fieldbook_read(book: *const u8, book_length: usize, at: usize, answer: &mut [u64; 9], next: &mut usize) -> u8;
    fn fieldbook_write(buffer: *mut u8, buffer_length: usize, at: usize, command: &[u64; 9], next: &mut usize) -> u8;
}

// Each call below is sound: the address and the length are of one slice, so the function stays within it; the address
// of a slice is never null, of an empty one neither; and what is borrowed to be written is borrowed alone, so it
// overlaps nothing else that the function gets. Any bytes and any places are answered or refused.

/// The answer: rows, trees in hundredths, low and high in grams of carbon dioxide, and the place of a refusal.
pub fn total(book: &[u8], sheet: &mut [u8], answer: &mut [u64; 5]) -> u8 {
    unsafe { fieldbook_total(book.as_ptr(), book.len(), sheet.as_mut_ptr(), sheet.len(), answer) }
}

/// The answer: stratum, species, tariff, d in hundredths of a cm, trees in hundredths, low and high in milligrams of
/// biomass.
pub fn sheet_row(sheet: &[u8], i: usize, answer: &mut [u64; 7]) -> u8 {
    unsafe { fieldbook_sheet_row(sheet.as_ptr(), sheet.len(), i, answer) }
}

/// The answer: the command's byte, its operands in the order of the book, and 0 for each that it does not have. Signed
/// ones are in two's complement of 64 bits. After a refusal `next` is `at`.
pub fn read(book: &[u8], at: usize, answer: &mut [u64; 9], next: &mut usize) -> u8 {
    unsafe { fieldbook_read(book.as_ptr(), book.len(), at, answer, next) }
}

/// Writes the command that the numbers stand for, in the order of `read`. 2 where no command has that byte; 6 where an
/// operand does not fit its bytes, or one that the command does not have is not 0; 4 where the buffer has too few
/// bytes.
pub fn write(buffer: &mut [u8], at: usize, command: &[u64; 9], next: &mut usize) -> u8 {
    unsafe { fieldbook_write(buffer.as_mut_ptr(), buffer.len(), at, command, next) }
}
