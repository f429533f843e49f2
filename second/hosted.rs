//! The C functions of the crate `pommerzil`, declared as include/pommerzil.h declares them, over slices.

extern "C" {
    fn pommerzil_run(
        book: *const u8,
        book_bytes: usize,
        flash: *const u8,
        flash_bytes: usize,
        ram: *mut u8,
        ram_bytes: usize,
        tags: *mut u8,
        tags_bytes: usize,
        budget: u32,
        answer: *mut u64,
        answer_numbers: usize,
    ) -> u8;
    fn pommerzil_read(
        book: *const u8,
        book_bytes: usize,
        flash_bytes: usize,
        ram: *mut u8,
        ram_bytes: usize,
        tags: *mut u8,
        tags_bytes: usize,
        registers: *mut u8,
        registers_bytes: usize,
    ) -> u8;
    fn pommerzil_write(
        registers: *const u8,
        registers_bytes: usize,
        ram: *const u8,
        ram_bytes: usize,
        tags: *const u8,
        tags_bytes: usize,
        book: *mut u8,
        book_bytes: usize,
        written: *mut usize,
    ) -> u8;
}

/// How many bytes the registers of a machine have.
pub const REGISTERS_BYTES: usize = 1627;

/// RAM and tags, as a host lends them.
#[derive(Clone, PartialEq, Debug)]
pub struct Lent {
    pub ram: Vec<u8>,
    pub tags: Vec<u8>,
}

pub fn linked_run(
    book: &[u8],
    flash: &[u8],
    lent: &mut Lent,
    budget: u32,
    answer: &mut [u64],
) -> u32 {
    let (ram, tags) = (&mut lent.ram, &mut lent.tags);
    // Each pointer goes with its length, and no two of the buffers overlap; so it is below.
    u32::from(unsafe {
        pommerzil_run(
            book.as_ptr(),
            book.len(),
            flash.as_ptr(),
            flash.len(),
            ram.as_mut_ptr(),
            ram.len(),
            tags.as_mut_ptr(),
            tags.len(),
            budget,
            answer.as_mut_ptr(),
            answer.len(),
        )
    })
}

pub fn linked_read(book: &[u8], flash_bytes: usize, lent: &mut Lent, registers: &mut [u8]) -> u32 {
    let (ram, tags) = (&mut lent.ram, &mut lent.tags);
    u32::from(unsafe {
        pommerzil_read(
            book.as_ptr(),
            book.len(),
            flash_bytes,
            ram.as_mut_ptr(),
            ram.len(),
            tags.as_mut_ptr(),
            tags.len(),
            registers.as_mut_ptr(),
            registers.len(),
        )
    })
}

pub fn linked_write(registers: &[u8], lent: &Lent, book: &mut [u8], written: &mut usize) -> u32 {
    u32::from(unsafe {
        pommerzil_write(
            registers.as_ptr(),
            registers.len(),
            lent.ram.as_ptr(),
            lent.ram.len(),
            lent.tags.as_ptr(),
            lent.tags.len(),
            book.as_mut_ptr(),
            book.len(),
            written,
        )
    })
}
