//! Text of md5sum out of a file's list and into it, written from document 02 (2026-07) alone.

use crate::par1::{self, test, Entry, Refusal};

/// "32 lower-case hex digits"
fn digits(md5: &[u8; 16]) -> Vec<u8> {
    md5.iter().flat_map(|b| format!("{b:02x}").into_bytes()).collect()
}

/// "Only names with units 32 to 126 fit a line": the name as it stands in a line, where it fits.
fn name_in_line(entry: &Entry) -> Option<Vec<u8>> {
    entry.name.chunks(2).map(|unit| if unit[1] == 0 && (32..=126).contains(&unit[0]) { Some(unit[0]) } else { None }).collect()
}

fn listed(file: &[u8]) -> Result<Vec<Entry>, Refusal> {
    let [.., start, _, _] = par1::read(file)?;
    par1::entries(&file[96..start as usize])
}

/// Tests those of reading, then 24; the caller tests 14. "Export each listed file, in list order, as a line: 32 lower-case hex digits, two spaces,
/// name, byte 10"
pub fn export(file: &[u8]) -> Result<Vec<u8>, Refusal> {
    let mut text = vec![];
    for entry in listed(file)? {
        let name = name_in_line(&entry);
        test(24, name.is_some())?;
        text.extend([digits(&entry.md5), b"  ".to_vec(), name.unwrap(), vec![10]].concat());
    }
    Ok(text)
}

/// The lines of a text without the byte 10 that ends each, and whether it ends the last.
pub fn lines(text: &[u8]) -> Vec<(&[u8], bool)> {
    text.split_inclusive(|&b| b == 10).map(|line| line.strip_suffix(&[10]).map_or((line, false), |line| (line, true))).collect()
}

/// Sum and name of a line of the right shape: "In a text a name is one or more bytes but 10".
fn sum_and_name(line: &[u8]) -> Option<(&[u8], &[u8])> {
    let right = line.len() > 34 && line[..32].iter().all(|b| b"0123456789abcdef".contains(b)) && &line[32..34] == b"  ";
    if right { Some((&line[..32], &line[34..])) } else { None }
}

/// Tests those of reading, then 22 and 23, of which "the earliest faulty line counts", with its number; the caller tests 14. "for each entry in list
/// order, a byte: 0 no line in the text, 1 the same sum, 2 a different one"
pub fn import(file: &[u8], text: &[u8]) -> Result<Vec<u8>, Refusal> {
    let entries = listed(file)?;
    let names: Vec<Option<Vec<u8>>> = entries.iter().map(name_in_line).collect();
    let mut sums: Vec<Option<&[u8]>> = vec![None; entries.len()];
    for (place, (line, ended)) in (1..).zip(lines(text)) {
        let faulty = |number| Refusal { number, place };
        let (sum, name) = sum_and_name(line).filter(|_| ended).ok_or(faulty(22))?;
        for (entry, _) in names.iter().enumerate().filter(|(_, listed)| listed.as_deref() == Some(name)) {
            if sums[entry].is_some_and(|earlier| earlier != sum) {
                return Err(faulty(23));
            }
            sums[entry] = Some(sum);
        }
    }
    let said = |(entry, sum): (&Entry, Option<&[u8]>)| sum.map_or(0, |sum| if sum == digits(&entry.md5) { 1 } else { 2 });
    Ok(entries.iter().zip(sums).map(said).collect())
}
