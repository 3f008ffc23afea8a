//! Document 01, "The book": numbers are little-endian. Read and written here and nowhere else.

pub fn number16(bytes: &[u8], offset: usize) -> usize {
    usize::from(bytes[offset]) + 256 * usize::from(bytes[offset + 1])
}

pub fn number32(bytes: &[u8], offset: usize) -> u64 {
    number16(bytes, offset) as u64 + 65_536 * number16(bytes, offset + 2) as u64
}

pub fn put16(bytes: &mut Vec<u8>, number: usize) {
    assert!(number < 65_536, "{number} does not fit 16 bits");
    bytes.push((number % 256) as u8);
    bytes.push((number / 256) as u8);
}

pub fn put32(bytes: &mut Vec<u8>, number: u64) {
    assert!(number < 4_294_967_296, "{number} does not fit 32 bits");
    put16(bytes, (number % 65_536) as usize);
    put16(bytes, (number / 65_536) as usize);
}

/// The trailer that books and images share, 12 bytes at the end of the file.
pub struct Trailer {
    pub distance: u64,
    /// S of a book, Q of an image.
    pub first_count: usize,
    /// E of a book, T of an image.
    pub edge_count: usize,
    pub form: usize,
    pub letters: [u8; 2],
}

pub const TRAILER: usize = 12;

/// The last 12 bytes; the caller has seen that there are as many.
pub fn trailer(file: &[u8]) -> Trailer {
    let start = file.len() - TRAILER;
    Trailer {
        distance: number32(file, start),
        first_count: number16(file, start + 4),
        edge_count: number16(file, start + 6),
        form: number16(file, start + 8),
        letters: [file[start + 10], file[start + 11]],
    }
}

pub fn put_trailer(bytes: &mut Vec<u8>, trailer: &Trailer) {
    put32(bytes, trailer.distance);
    put16(bytes, trailer.first_count);
    put16(bytes, trailer.edge_count);
    put16(bytes, trailer.form);
    bytes.extend_from_slice(&trailer.letters);
}
