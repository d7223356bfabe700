//! The conversions of a yard file as long as one may be: squares, each with a run, and each moved.

use crate::abi::{yard_file_lengthen, yard_file_shorten};

pub const BUFFER: usize = 8192;

/// A file of version 1 of at most so many bytes: as many rounds of a square, a run and a move as there is room for.
pub fn file(most: usize) -> Vec<u8> {
    let mut file = b"YRD\x01\x00".to_vec();
    for k in (0u16..).map_while(|k| (file_room(k) <= most).then_some(k)) {
        let (n, at) = (k as u8 % 24, 100 * (k % 300));
        let fields = |list: &[u16]| list.iter().flat_map(|f| f.to_le_bytes()).collect::<Vec<u8>>();
        file.extend([1, n, 4]);
        file.extend(fields(&[at, at, at + 90, at, at + 90, at + 90, at, at + 90]));
        file.extend([4, n]);
        file.extend(fields(&[0, at, 32_767, at]));
        file.extend([3, n]);
        file.extend(fields(&[1, 65_535]));
    }
    file
}

/// The bytes of a file of one round more.
fn file_room(rounds: u16) -> usize {
    5 + 35 * (rounds as usize + 1)
}

/// For callgrind: the longest such file there and back.
pub fn once() {
    let source = file(BUFFER);
    let (mut short, mut back, mut lengths) = (vec![0; BUFFER], vec![0; BUFFER], [[0]; 2]);
    // The lists are apart, live for the call, and as long as stated.
    let answers = unsafe {
        let first = yard_file_shorten(source.as_ptr(), source.len(), short.as_mut_ptr(), BUFFER, lengths[0].as_mut_ptr(), 1);
        let size = lengths[0][0] as usize;
        [first, yard_file_lengthen(short.as_ptr(), size, back.as_mut_ptr(), BUFFER, lengths[1].as_mut_ptr(), 1)]
    };
    assert!(answers == [0, 0] && back[..lengths[1][0] as usize] == source[..], "not the same bytes");
    println!("{} {}", source.len(), lengths[0][0]);
}
