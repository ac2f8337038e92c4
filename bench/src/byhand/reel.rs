//! A reel's file: accepted or not, and written.

const LETTERS: &[u8; 4] = b"MRKS";

fn word(file: &[u8], at: usize) -> u32 {
    u32::from_le_bytes(file[at..at + 4].try_into().expect("four bytes"))
}

/// The place and the length of a frame's records, where the file is accepted and has the frame.
pub fn find(file: &[u8], frame: u32) -> Option<(u32, u32)> {
    let end = file.len();
    if !(12..=65536).contains(&end) || &file[end - 4..] != LETTERS {
        return None;
    }
    let (position, frames) = (word(file, end - 12), word(file, end - 8));
    if u64::from(position) + 4 * u64::from(frames) + 12 != end as u64 {
        return None;
    }
    let (records, table) = file.split_at(position as usize);
    let numbers = table[..4 * frames as usize].chunks_exact(4).map(|bytes| word(bytes, 0));
    if !numbers.clone().is_sorted() || numbers.clone().last().unwrap_or(0) as usize * 8 != records.len() {
        return None;
    }
    let mut coordinates = records
        .chunks_exact(2)
        .map(|bytes| i16::from_le_bytes([bytes[0], bytes[1]]));
    if !coordinates.all(|z| (-16384..=16383).contains(&z)) || frame >= frames {
        return None;
    }
    let before = |k: u32| if k == 0 { 0 } else { word(table, 4 * k as usize - 4) };
    Some((8 * before(frame), 8 * (before(frame + 1) - before(frame))))
}

/// Writes the file of a list and a table that fit together. The buffer is exactly as long as the file.
pub fn write(list: &[i32], table: &[u32], out: &mut [u8]) {
    let (records, rest) = out.split_at_mut(2 * list.len());
    for (bytes, &z) in records.chunks_exact_mut(2).zip(list) {
        bytes.copy_from_slice(&(z as i16).to_le_bytes());
    }
    let (numbers, last) = rest.split_at_mut(4 * table.len());
    for (bytes, &n) in numbers.chunks_exact_mut(4).zip(table) {
        bytes.copy_from_slice(&n.to_le_bytes());
    }
    last[..4].copy_from_slice(&(2 * list.len() as u32).to_le_bytes());
    last[4..8].copy_from_slice(&(table.len() as u32).to_le_bytes());
    last[8..].copy_from_slice(LETTERS);
}
