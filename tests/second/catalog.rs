//! The index of a set, a catalog, written from document 02 (2026-08) alone.

use crate::par1::{self, test, Entry, Refusal, FILE_LIMIT};

pub const HEAD: usize = 16;
pub const ROW: usize = 28;
const MOST_ENTRIES: usize = 1024;

/// "An entry row has file number (0 if not saved) as 4 bytes, size as 8, MD5 as 16; a volume row has number as 4 bytes, data size as 8, control hash
/// as 16"
#[derive(Clone, Debug, PartialEq)]
pub struct Row {
    pub number: u32,
    pub size: u64,
    pub hash: [u8; 16],
}

impl Row {
    fn bytes(&self) -> Vec<u8> {
        [&self.number.to_le_bytes()[..], &self.size.to_le_bytes(), &self.hash].concat()
    }

    fn parse(bytes: &[u8]) -> Row {
        Row {
            number: u32::from_le_bytes(bytes[..4].try_into().unwrap()),
            size: u64::from_le_bytes(bytes[4..12].try_into().unwrap()),
            hash: bytes[12..28].try_into().unwrap(),
        }
    }
}

#[derive(Clone)]
pub struct Catalog {
    pub entries: Vec<Row>,
    pub volumes: Vec<Row>,
}

/// "Files are numbered 1 to n over the saved entries only, in list order"
fn entry_rows(list: &[Entry]) -> Vec<Row> {
    let mut saved = 0;
    let mut row = |entry: &Entry| {
        saved += (entry.status % 2) as u32;
        Row { number: if entry.status % 2 == 1 { saved } else { 0 }, size: entry.size, hash: entry.md5 }
    };
    list.iter().map(&mut row).collect()
}

fn list(file: &[u8], start: u64) -> Result<Vec<Entry>, Refusal> {
    par1::entries(&file[96..start as usize])
}

impl Catalog {
    /// "four 32-bit numbers (entries, volumes, start of the entry rows, which is 16, start of the volume rows), then the rows, all little-endian"
    pub fn bytes(&self) -> Vec<u8> {
        let start = HEAD + ROW * self.entries.len();
        let head = [self.entries.len(), self.volumes.len(), HEAD, start].into_iter().flat_map(|n| (n as u32).to_le_bytes());
        head.chain(self.entries.iter().chain(&self.volumes).flat_map(Row::bytes)).collect()
    }

    pub fn saved(&self) -> u32 {
        self.entries.iter().filter(|row| row.number != 0).count() as u32
    }

    /// "30 index bytes that, hashes apart, no list and volumes give, or that end early": the rows, where there are a list and volumes that give them.
    pub fn parse(bytes: &[u8]) -> Result<Catalog, u32> {
        let number = |at: usize| bytes.get(at..at + 4).map(|b| u32::from_le_bytes(b.try_into().unwrap()) as usize).ok_or(30u32);
        let (entries, volumes, entry_start, volume_start) = (number(0)?, number(4)?, number(8)?, number(12)?);
        test(30, entries <= MOST_ENTRIES && entry_start == HEAD && volume_start == HEAD + ROW * entries)?;
        test(30, bytes.len() >= HEAD + ROW * (entries + volumes))?;
        let row = |i: usize| Row::parse(&bytes[HEAD + ROW * i..]);
        let catalog = Catalog { entries: (0..entries).map(row).collect(), volumes: (entries..entries + volumes).map(row).collect() };
        test(30, catalog.given())?;
        Ok(catalog)
    }

    /// Whether a list gives the entry rows and volumes of it the volume rows, hashes apart.
    fn given(&self) -> bool {
        let numbers: Vec<u32> = self.entries.iter().map(|row| row.number).filter(|&number| number != 0).collect();
        let n = numbers.len() as u32;
        let greatest = self.entries.iter().filter(|row| row.number != 0).map(|row| row.size).max().unwrap_or(0);
        let volume = |row: &Row| n > 0 && row.number >= 1 && row.number <= 255 - n && row.size == greatest;
        n <= 254
            && numbers.iter().copied().eq(1..=n)
            && self.entries.iter().all(|row| row.size <= FILE_LIMIT)
            && self.volumes.iter().all(volume)
            && self.volumes.windows(2).all(|two| two[0].number < two[1].number)
    }

    /// "10 volume number 0 or above 255 - n", n of the catalog
    fn in_range(&self, number: u64) -> bool {
        number >= 1 && number <= 255 - self.saved() as u64
    }
}

/// "opened from one accepted file's list, with no volumes". Tests those of reading, 26; the caller tests 14.
pub fn open(file: &[u8]) -> Result<Vec<u8>, Refusal> {
    let [.., start, _, _] = par1::read(file)?;
    let list = list(file, start)?;
    test(26, list.len() <= MOST_ENTRIES)?;
    Ok(Catalog { entries: entry_rows(&list), volumes: vec![] }.bytes())
}

/// Tests those of reading, 30, 10, 25, 26, 11; the caller tests 14.
pub fn add(catalog: &[u8], volume: &[u8]) -> Result<Vec<u8>, Refusal> {
    let [_, number, .., start, size, _] = par1::read(volume)?;
    let mut next = Catalog::parse(catalog)?;
    test(10, next.in_range(number))?;
    let list = list(volume, start)?;
    test(25, entry_rows(&list) == next.entries)?;
    test(26, list.len() <= MOST_ENTRIES)?;
    test(11, next.volumes.iter().all(|row| row.number as u64 != number))?;
    next.volumes.push(Row { number: number as u32, size, hash: volume[16..32].try_into().unwrap() });
    next.volumes.sort_by_key(|row| row.number);
    Ok(next.bytes())
}

/// Tests 30, 10, 11.
pub fn drop(catalog: &[u8], number: u64) -> Result<Vec<u8>, Refusal> {
    let mut next = Catalog::parse(catalog)?;
    test(10, next.in_range(number))?;
    let at = next.volumes.iter().position(|row| row.number as u64 == number).ok_or(11)?;
    next.volumes.remove(at);
    Ok(next.bytes())
}

/// Tests 30, then 14 where there are fewer records than entries: the records that are filled.
pub fn load(catalog: &[u8], records: usize) -> Result<Vec<Row>, Refusal> {
    let catalog = Catalog::parse(catalog)?;
    test(14, catalog.entries.len() <= records)?;
    Ok(catalog.entries)
}
