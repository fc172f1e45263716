//! What is present of a set, and which missing files come back: written from document 01, "The sheet", and document 02 (2026-10, 2026-13) alone.

use crate::field::{coefficient, inverse, product, Code};

const SIZE_LIMIT: u64 = 16_777_216;

#[derive(Clone)]
pub struct Inventory {
    n: usize,
    nonempty: Vec<bool>,
    files: Vec<bool>,
    volumes: Vec<bool>,
    quarantined: Vec<bool>,
    code: Code,
}

/// The calls that change an inventory; "noting a volume names its code", here by its number.
#[derive(Clone, Copy, Debug, PartialEq)]
pub enum Change {
    AddFile,
    RemoveFile,
    AddVolume(u32),
    RemoveVolume,
    SetAside,
    TakeBack,
}

/// The 144 bytes of an inventory: n, then four sets of 256 bits, then the code.
pub const LENGTH: usize = 144;

/// Where the code stands.
pub const CODE: usize = 136;

fn set_bytes(set: &[bool]) -> Vec<u8> {
    let bit = |k: usize| set.get(k).copied().unwrap_or(false) as u8;
    (0..32).map(|i| (0..8).map(|j| bit(8 * i + j) << j).sum()).collect()
}

/// 11 where what is noted is in hand, or what is withdrawn is not.
fn put(present: &mut bool, add: bool) -> u32 {
    if *present == add {
        return 11;
    }
    *present = add;
    0
}

/// "11 for setting aside what is not in hand, or taking back what is not set aside"
fn moved(from: &mut bool, to: &mut bool) -> u32 {
    if !*from {
        return 11;
    }
    (*from, *to) = (false, true);
    0
}

impl Inventory {
    /// "A sheet is opened for one code or the other". 10 for n and a number of sizes other than n, then 1 for a size above the limit.
    pub fn open(code: Code, n: u64, sizes: &[u64]) -> Result<Inventory, u32> {
        if !(1..=254).contains(&n) || sizes.len() as u64 != n {
            return Err(10);
        }
        if sizes.iter().any(|&s| s > SIZE_LIMIT) {
            return Err(1);
        }
        let mut nonempty = vec![false];
        nonempty.extend(sizes.iter().map(|&s| s > 0));
        let none = vec![false; 256];
        Ok(Inventory { n: n as usize, nonempty, files: none.clone(), volumes: none.clone(), quarantined: none, code })
    }

    pub fn bytes(&self) -> Vec<u8> {
        let [n, code] = [self.n as u64, self.code.number() as u64].map(|number| number.to_le_bytes().to_vec());
        [n, set_bytes(&self.files), set_bytes(&self.volumes), set_bytes(&self.nonempty), set_bytes(&self.quarantined), code].concat()
    }

    /// An inventory that opening and accepted calls could have given, or nothing.
    pub fn parse(bytes: &[u8]) -> Option<Inventory> {
        if bytes.len() != LENGTH {
            return None;
        }
        let n = u64::from_le_bytes(bytes[..8].try_into().unwrap());
        if !(1..=254).contains(&n) {
            return None;
        }
        let n = n as usize;
        let code = Code::of(u64::from_le_bytes(bytes[CODE..].try_into().unwrap()))?;
        let set = |at: usize| (0..256).map(|k| bytes[at + k / 8] >> (k % 8) & 1 == 1).collect::<Vec<bool>>();
        let (files, volumes, nonempty, quarantined) = (set(8), set(40), set(72), set(104));
        let inside = |set: &[bool], last: usize| (0..256).all(|k| !set[k] || (1..=last).contains(&k));
        let apart = (0..256).all(|k| !(volumes[k] && quarantined[k]));
        let valid = inside(&files, n) && inside(&nonempty, n) && inside(&volumes, 255 - n) && inside(&quarantined, 255 - n) && apart;
        valid.then_some(Inventory { n, nonempty: nonempty[..=n].to_vec(), files, volumes, quarantined, code })
    }

    /// The number of a change; where it is 0 the inventory changes. "29 a volume of the other code noted, after 10, before 27 and 11"; "27 noted while
    /// set aside"; "Withdrawing a set-aside volume is accepted and removes it".
    pub fn change(&mut self, change: Change, number: u64) -> u32 {
        let last = if matches!(change, Change::AddFile | Change::RemoveFile) { self.n } else { 255 - self.n };
        if number < 1 || number > last as u64 {
            return 10;
        }
        let k = number as usize;
        match change {
            Change::AddFile => put(&mut self.files[k], true),
            Change::RemoveFile => put(&mut self.files[k], false),
            Change::AddVolume(code) => match Code::of(code as u64) {
                None => 10,
                Some(code) if code != self.code => 29,
                _ if self.quarantined[k] => 27,
                _ => put(&mut self.volumes[k], true),
            },
            Change::RemoveVolume if self.quarantined[k] => put(&mut self.quarantined[k], false),
            Change::RemoveVolume => put(&mut self.volumes[k], false),
            Change::SetAside => moved(&mut self.volumes[k], &mut self.quarantined[k]),
            Change::TakeBack => moved(&mut self.quarantined[k], &mut self.volumes[k]),
        }
    }

    /// Files and volumes in hand, and "those set aside".
    pub fn count(&self) -> [u64; 3] {
        [&self.files, &self.volumes, &self.quarantined].map(|set| set.iter().filter(|&&b| b).count() as u64)
    }

    /// The weights of file f, or 10, 13 or 12; the caller tests 14.
    pub fn query(&self, f: u64) -> Result<Vec<u8>, u32> {
        if f < 1 || f > self.n as u64 {
            return Err(10);
        }
        let f = f as usize;
        if self.files[f] {
            return Err(13);
        }
        let mut weights = vec![0; 255];
        if !self.nonempty[f] {
            return Ok(weights);
        }
        let columns: Vec<usize> = (1..=self.n).filter(|&g| !self.files[g] && self.nonempty[g]).collect();
        let of_volumes = solve(&self.used_rows(&columns), columns.iter().position(|&g| g == f).unwrap()).ok_or(12u32)?;
        for &(v, w) in &of_volumes {
            weights[self.n + v - 1] = w;
        }
        for g in (1..=self.n).filter(|&g| self.files[g]) {
            weights[g - 1] = of_volumes.iter().fold(0, |sum, &(v, w)| sum ^ product(w, coefficient(self.code, g as u8, v as u8)));
        }
        Ok(weights)
    }

    /// The lost files that are rebuildable, ascending, by the rows of all volumes in hand reduced at once: a file of size 1 or more is one exactly where
    /// the row with its column alone is among them.
    pub fn recoverable(&self) -> Vec<usize> {
        let lost: Vec<usize> = (1..=self.n).filter(|&f| !self.files[f]).collect();
        let columns: Vec<usize> = lost.iter().copied().filter(|&f| self.nonempty[f]).collect();
        let row = |v| columns.iter().map(|&g| coefficient(self.code, g as u8, v as u8)).collect();
        let reduced = reduced((1..=255 - self.n).filter(|&v| self.volumes[v]).map(row).collect());
        let alone = |c: usize| reduced.iter().any(|r| r.iter().enumerate().all(|(i, &x)| x == (i == c) as u8));
        lost.into_iter().filter(|f| columns.iter().position(|g| g == f).map_or(true, alone)).collect()
    }

    /// "A volume is used if its row is no sum of multiples of the rows of lower-numbered volumes in hand."
    fn used_rows(&self, columns: &[usize]) -> Vec<(usize, Vec<u8>)> {
        let mut used: Vec<(usize, Vec<u8>)> = vec![];
        for v in (1..=255 - self.n).filter(|&v| self.volumes[v]) {
            let row: Vec<u8> = columns.iter().map(|&g| coefficient(self.code, g as u8, v as u8)).collect();
            let mut with: Vec<Vec<u8>> = used.iter().map(|(_, r)| r.clone()).collect();
            with.push(row.clone());
            if rank(with) > used.len() {
                used.push((v, row));
            }
        }
        used
    }
}

/// The rank, by elimination of rows.
fn rank(mut rows: Vec<Vec<u8>>) -> usize {
    let mut rank = 0;
    for column in 0..rows.first().map_or(0, Vec::len) {
        let Some(pivot) = (rank..rows.len()).find(|&i| rows[i][column] != 0) else { continue };
        rows.swap(rank, pivot);
        let scale = inverse(rows[rank][column]).unwrap();
        let top = rows[rank].clone();
        for row in &mut rows[rank + 1..] {
            let factor = product(row[column], scale);
            row.iter_mut().zip(&top).for_each(|(x, &t)| *x ^= product(factor, t));
        }
        rank += 1;
    }
    rank
}

/// Rows with the same sums of multiples, each with a 1, nothing but 0 before it, where the others have 0.
fn reduced(mut rows: Vec<Vec<u8>>) -> Vec<Vec<u8>> {
    let mut rank = 0;
    for column in 0..rows.first().map_or(0, Vec::len) {
        let Some(pivot) = (rank..rows.len()).find(|&i| rows[i][column] != 0) else { continue };
        rows.swap(rank, pivot);
        let scale = inverse(rows[rank][column]).unwrap();
        rows[rank].iter_mut().for_each(|x| *x = product(scale, *x));
        let top = rows[rank].clone();
        for (_, row) in rows.iter_mut().enumerate().filter(|(i, row)| *i != rank && row[column] != 0) {
            let factor = row[column];
            row.iter_mut().zip(&top).for_each(|(x, &t)| *x ^= product(factor, t));
        }
        rank += 1;
    }
    rows.truncate(rank);
    rows
}

/// The weights of independent rows that sum them to 1 in one column and 0 in the others, where there are any: one equation a column.
fn solve(rows: &[(usize, Vec<u8>)], asked: usize) -> Option<Vec<(usize, u8)>> {
    let unknowns = rows.len();
    let columns = rows.first().map_or(0, |(_, r)| r.len());
    let mut equations: Vec<Vec<u8>> = (0..columns)
        .map(|g| rows.iter().map(|(_, r)| r[g]).chain([(g == asked) as u8]).collect())
        .collect();
    for unknown in 0..unknowns {
        let pivot = (unknown..equations.len()).find(|&i| equations[i][unknown] != 0)?;
        equations.swap(unknown, pivot);
        let scale = inverse(equations[unknown][unknown]).unwrap();
        let top: Vec<u8> = equations[unknown].iter().map(|&x| product(scale, x)).collect();
        equations[unknown] = top.clone();
        for (i, equation) in equations.iter_mut().enumerate() {
            if i != unknown {
                let factor = equation[unknown];
                equation.iter_mut().zip(&top).for_each(|(x, &t)| *x ^= product(factor, t));
            }
        }
    }
    let solvable = columns > 0 && equations[unknowns..].iter().all(|e| e[unknowns] == 0);
    solvable.then(|| (0..unknowns).map(|i| (rows[i].0, equations[i][unknowns])).collect())
}
