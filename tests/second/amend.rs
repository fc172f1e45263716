//! Amending a volume in its room, written from document 02 (2026-05, 2026-13) alone: the list with the new entry, the data with both stretches
//! added by the factor of the volume's own code, and the volume written from these.

use crate::field::{self, Code};
use crate::par1::{self, test, Entry, Refusal};

/// What has changed in a file: from `place` on it had the bytes `old` and now has `new`, and `entry` is its entry as it now is.
#[derive(Clone)]
pub struct Amendment {
    pub file: u64,
    pub place: u64,
    pub old: Vec<u8>,
    pub new: Vec<u8>,
    pub entry: Vec<u8>,
}

/// "Either both stretches are equally long and inside the file, or the old one is empty and the new one goes on the end": the file's size after it.
fn size_given(size: u64, a: &Amendment) -> Option<u64> {
    let (old, new) = (a.old.len() as u64, a.new.len() as u64);
    let inside = old == new && a.place as u128 + old as u128 <= size as u128;
    let on_the_end = old == 0 && a.place == size;
    if inside { Some(size) } else if on_the_end { Some(size + new) } else { None }
}

/// Where the entry of file f begins, and the entry: "Files are numbered 1 to n over the saved entries only, in list order".
fn listed(list: &[u8], f: u64) -> (usize, Entry) {
    let (mut at, mut saved) = (0, 0);
    loop {
        let (entry, length) = par1::entry(&list[at..]).unwrap_or_else(|_| panic!("file {f} of a list that was read"));
        saved += entry.status % 2;
        if entry.status % 2 == 1 && saved == f {
            return (at, entry);
        }
        at += length;
    }
}

/// The data as long as the list now wants it, with zeros after, and the coefficient times both stretches added from the place on.
fn amended_data(data: &[u8], size: u64, coefficient: u8, a: &Amendment) -> Vec<u8> {
    let mut data = data.to_vec();
    data.resize(size as usize, 0);
    let rest = data.split_off(a.place as usize);
    let without_old = field::mul_add(coefficient, &a.old, &rest);
    [data, field::mul_add(coefficient, &a.new, &without_old)].concat()
}

/// Tests 14 (the length), those of reading, 10, 16 to 18 of the new entry, 21, 1; the caller tests 14 (the room).
pub fn amend(room: &[u8], length: u64, a: &Amendment) -> Result<Vec<u8>, Refusal> {
    test(14, length <= room.len() as u64)?;
    let volume = &room[..length as usize];
    let [program, number, _, saved, _, start, _, code] = par1::read(volume)?;
    test(10, number != 0 && a.file != 0 && a.file <= saved)?;
    let entry = par1::lone_entry(&a.entry)?;
    let (list, data) = (&volume[96..start as usize], &volume[start as usize..]);
    let (at, former) = listed(list, a.file);
    let same = entry.name == former.name && entry.status == former.status;
    test(21, size_given(former.size, a) == Some(entry.size) && same)?;
    let list = [&list[..at], &a.entry, &list[at + a.entry.len()..]].concat();
    let size = par1::data_size(&par1::entries(&list)?);
    let code = Code::of(code).expect("the code of a file that was read");
    let coefficient = field::coefficient(code, a.file as u8, number as u8);
    par1::write_volume(code, program as u32, number, &list, &amended_data(data, size, coefficient, a))
}
