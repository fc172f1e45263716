//! Text of md5sum out of a list and into it (document 02, 2026-07): texts and answers written here by hand; a line with each byte changed into each
//! other; texts cut at each byte; names of 1 to 300 bytes, names that do not fit, names that two entries share, names that are not listed; random
//! texts; exports imported again; each refusal with each later one; rooms.

use crate::compare_codes::turned;
use crate::compare_differences::refused_files;
use crate::compare_faults::at;
use crate::compare_par1::unhashed;
use crate::field::Code;
use crate::files::{list, File};
use crate::{calls, expected, par1, rounds, small, Counts, Random};

/// An entry's name from one of a line.
fn units(name: &[u8]) -> Vec<u8> {
    name.iter().flat_map(|&b| [b, 0]).collect()
}

fn file(contents: &[u8], name: &[u8]) -> File {
    File { contents: contents.to_vec(), status: name.len() as u64 % 4, name: units(name) }
}

fn index(files: &[File]) -> Vec<u8> {
    par1::write_volume(Code::Powers, 7, 0, &list(files), b"a comment.").unwrap()
}

fn sum(contents: &[u8]) -> Vec<u8> {
    crate::md5::digest(contents).iter().flat_map(|b| format!("{b:02x}").into_bytes()).collect()
}

/// A line for a file with these contents.
fn line(contents: &[u8], name: &[u8]) -> Vec<u8> {
    [&sum(contents)[..], b"  ", name, b"\n"].concat()
}

/// An accepted call, as C gets it.
fn accepted(value: usize) -> u64 {
    32 * value as u64
}

/// A call against what the documents say of it, of the file and of the same file by the other code.
fn export(counts: &mut Counts, what: &str, file: &[u8], room: &[u8]) -> (u64, Vec<u8>) {
    let got = calls::export(file, room);
    counts.same(|| format!("exporting {what}, a room of {} bytes", room.len()), &got, &expected::export(file, room));
    counts.same(|| format!("exporting {what} by the other code"), &calls::export(&turned(file), room), &got);
    got
}

fn import(counts: &mut Counts, what: &str, file: &[u8], text: &[u8], room: &[u8]) -> (u64, Vec<u8>) {
    let got = calls::import(file, text, room);
    let shown = || String::from_utf8_lossy(text).chars().take(99).collect::<String>();
    counts.same(|| format!("importing {what}, a room of {} bytes: {}", room.len(), shown()), &got, &expected::import(file, text, room));
    counts.same(|| format!("importing {what} by the other code"), &calls::import(&turned(file), text, room), &got);
    got
}

/// The answer is this one, with these bytes in a room of three more; refused, the room stays.
fn says(counts: &mut Counts, what: &str, file: &[u8], text: &[u8], answer: u64, bytes: &[u8]) {
    let room = vec![0xee; bytes.len() + 3];
    let got = import(counts, what, file, text, &room);
    let after = if answer % 32 == 0 { [bytes, &[0xee; 3]].concat() } else { room };
    counts.same(|| format!("what {what} says"), got, (answer, after));
}

/// Contents and sums of RFC 1321's suite.
fn by_hand(counts: &mut Counts) {
    let whole = index(&[file(b"", b"EMPTY.LOG"), file(b"a", b"A B"), file(b"abc", b"~ !")]);
    let text = b"d41d8cd98f00b204e9800998ecf8427e  EMPTY.LOG\n0cc175b9c0f1b6a831c399e269772661  A B\n900150983cd24fb0d6963f7d28e17f72  ~ !\n";
    let got = export(counts, "by hand", &whole, &[0xee; 130]);
    let rest = vec![0xee; 130 - text.len()];
    counts.same(|| "an export by hand".into(), got, (accepted(text.len()), [&text[..], &rest].concat()));
    says(counts, "its own text", &whole, text, accepted(3), &[1, 1, 1]);
    says(counts, "no text", &whole, b"", accepted(3), &[0, 0, 0]);
    let (first, second, third) = (line(b"", b"EMPTY.LOG"), line(b"a", b"A B"), line(b"abc", b"~ !"));
    let other = line(b"abd", b"~ !");
    says(counts, "one line", &whole, &second, accepted(3), &[0, 1, 0]);
    says(counts, "lines in another order", &whole, &[&third[..], &first].concat(), accepted(3), &[1, 0, 1]);
    says(counts, "another sum", &whole, &[&first[..], &other].concat(), accepted(3), &[1, 0, 2]);
    says(counts, "a line again", &whole, &[&first[..], &second, &first].concat(), accepted(3), &[1, 1, 0]);
    says(counts, "another sum again", &whole, &other.repeat(3), accepted(3), &[0, 0, 2]);
    says(counts, "another sum after", &whole, &[&third[..], &first, &other].concat(), at(23, 3), &[0; 3]);
    says(counts, "another sum before", &whole, &[&other[..], &first, &third].concat(), at(23, 3), &[0; 3]);
    let unlisted = [line(b"1", b"A  B"), line(b"2", b"A  B"), line(b"3", b"a b"), line(b"4", b"EMPTY.LO"), line(b"", b"EMPTY.LOG ")].concat();
    says(counts, "names that are not listed", &whole, &[&unlisted[..], &third].concat(), accepted(3), &[0, 0, 1]);
    says(counts, "a text of an index with no entry", &index(&[]), &[&unlisted[..], &third].concat(), accepted(0), &[]);
    let got = export(counts, "an index with no entry", &index(&[]), &[]);
    counts.same(|| "an index with no entry".into(), got, (0, vec![]));
}

/// A line of another shape as the second of three.
fn shapes(counts: &mut Counts) {
    let whole = index(&[file(b"a", b"A")]);
    let right = line(b"a", b"A");
    let (digits, upper) = (sum(b"a"), sum(b"a").to_ascii_uppercase());
    let wrong: [(&str, Vec<u8>); 14] = [
        ("no bytes", b"\n".to_vec()),
        ("upper-case digits", [&upper[..], b"  A\n"].concat()),
        ("one upper-case digit", [&digits[..31], b"A  A\n"].concat()),
        ("a letter g", [&digits[..31], b"g  A\n"].concat()),
        ("31 digits", [&digits[..31], b"  A\n"].concat()),
        ("33 digits", [&digits[..], b"0  A\n"].concat()),
        ("no space", [&digits[..], b"A\n"].concat()),
        ("one space", [&digits[..], b" A\n"].concat()),
        ("a space and a star", [&digits[..], b" *A\n"].concat()),
        ("a tab", [&digits[..], b"\t A\n"].concat()),
        ("no name", [&digits[..], b"  \n"].concat()),
        ("a space before", [b" ", &right[..]].concat()),
        ("a backslash before", [b"\\", &right[..]].concat()),
        ("digits alone", [&digits[..], b"\n"].concat()),
    ];
    for (what, wrong) in &wrong {
        says(counts, what, &whole, &[&right[..], wrong, &right].concat(), at(22, 2), &[0]);
        says(counts, what, &whole, wrong, at(22, 1), &[0]);
    }
    let names: [(&str, &[u8]); 5] =
        [("byte 13 at the end", b"A\r"), ("a third space", b" A"), ("a star", b"*A"), ("bytes above 127", b"\xc3\x84"), ("byte 0", b"A\0")];
    for (what, name) in names {
        says(counts, what, &whole, &[line(b"b", name), line(b"c", name), right.clone()].concat(), accepted(1), &[1]);
    }
    let cr = index(&[file(b"a", b"*A"), file(b"b", b" ")]);
    says(counts, "a name that begins with a star", &cr, &[line(b"a", b"*A"), line(b"b", b" ")].concat(), accepted(2), &[1, 1]);
}

/// Each byte of a text changed into each other, and the text cut at each byte.
fn each_byte(counts: &mut Counts) {
    let whole = index(&[file(b"a", b"A"), file(b"b", b"BC"), file(b"a", b"A")]);
    let text = [line(b"a", b"A"), line(b"b", b"BC")].concat();
    for place in (0..text.len()).step_by(if small() { 9 } else { 1 }) {
        for byte in 0..=255 {
            let mut changed = text.clone();
            changed[place] = byte;
            import(counts, "a text with one byte changed", &whole, &changed, &[0xee; 3]);
        }
    }
    for n in 0..=text.len() {
        let whole_lines = n == 0 || n == 36 || n == text.len();
        let want = if whole_lines { accepted(3) } else { at(22, 1 + (n > 36) as usize) };
        let got = import(counts, "a text cut short", &whole, &text[..n], &[0xee; 3]).0;
        counts.same(|| format!("a text cut at byte {n}"), got, want);
    }
}

/// A name of each length, in texts with it, with a byte more, a byte less, and another last byte.
fn lengths(counts: &mut Counts, random: &mut Random) {
    for n in (1..=300).step_by(if small() { 29 } else { 1 }) {
        let name: Vec<u8> = (0..n).map(|i| b"ABC.~ "[random.below(if i == 0 { 3 } else { 6 })]).collect();
        let whole = index(&[file(b"a", &name), file(b"b", b"X")]);
        let mut other = name.clone();
        other[n - 1] ^= 1;
        let text = [line(b"1", &other), line(b"2", &[&name[..], b"A"].concat()), line(b"2", &[b"A", &name[..]].concat())].concat();
        says(counts, "names like a listed one", &whole, &text, accepted(2), &[0, 0]);
        says(counts, "a long name", &whole, &[&text[..], &line(b"a", &name)].concat(), accepted(2), &[1, 0]);
        if n > 1 {
            says(counts, "a byte less", &whole, &[line(b"1", &name[1..]), line(b"1", &name[..n - 1])].concat(), accepted(2), &[0, 0]);
        }
        let got = export(counts, "a long name", &whole, &vec![0xee; 35 + n + 36]);
        counts.same(|| format!("a name of {n} bytes"), got, (accepted(35 + n + 36), [line(b"a", &name), line(b"b", b"X")].concat()));
    }
}

/// Names with a unit: those of 32 to 126 fit; the others have no line, whatever bytes a line has; a name with 0, 47, 58 or 92 is in no list.
fn fits(counts: &mut Counts) {
    let all = (0..=300).chain([0x4100, 0x4141, 0x0a41, 0x2020, 0x7e00, 0x8041, 0xd83d, 0xfffe, 0xffff]);
    for unit in all.step_by(if small() { 13 } else { 1 }) {
        let name = [&[b'A', 0][..], &(unit as u16).to_le_bytes()].concat();
        if [0, 47, 58, 92].contains(&unit) {
            let whole = unhashed(0, 1, &File { contents: b"a".to_vec(), status: 1, name }.entry());
            let got = export(counts, "a unit", &whole, &[0xee; 73]).0;
            counts.same(|| format!("a name with unit {unit} exported"), got, at(18, 1));
            says(counts, &format!("unit {unit}"), &whole, b"", at(18, 1), &[0; 2]);
            continue;
        }
        let whole = index(&[file(b"1", b"X"), File { contents: b"a".to_vec(), status: 1, name }]);
        let fit = (32..=126).contains(&unit);
        let (low, high) = ((unit % 256) as u8, (unit / 256) as u8);
        let got = export(counts, "a unit", &whole, &[0xee; 73]).0;
        counts.same(|| format!("a name with unit {unit} exported"), got, if fit { accepted(73) } else { 24 });
        let got = export(counts, "a unit into little room", &whole, &[0xee; 72]).0;
        counts.same(|| format!("a name with unit {unit} exported into little room"), got, if fit { 14 } else { 24 });
        let names = [vec![b'A', low], vec![b'A', low, high], vec![b'A', 0, low, high], vec![b'A', b'?'], vec![b'A']];
        let text: Vec<u8> = names.iter().filter(|name| !name.contains(&10)).flat_map(|name| line(b"a", name)).collect();
        says(counts, &format!("unit {unit}"), &whole, &text, accepted(2), &[0, fit as u8]);
    }
}

/// Entries that share a name: a line counts for each of them.
fn shared_names(counts: &mut Counts) {
    let whole = index(&[file(b"a", b"A"), file(b"b", b"B"), file(b"c", b"A"), file(b"a", b"A")]);
    says(counts, "the first's sum", &whole, &line(b"a", b"A"), accepted(4), &[1, 0, 2, 1]);
    says(counts, "the second's sum", &whole, &line(b"c", b"A"), accepted(4), &[2, 0, 1, 2]);
    says(counts, "another's sum", &whole, &line(b"b", b"A"), accepted(4), &[2, 0, 2, 2]);
    says(counts, "both sums", &whole, &[line(b"a", b"A"), line(b"b", b"B"), line(b"c", b"A")].concat(), at(23, 3), &[0; 4]);
    let (answer, text) = export(counts, "a shared name", &whole, &[0xee; 144]);
    counts.same(|| "a shared name".into(), answer, accepted(144));
    says(counts, "an export in which a name has unlike sums", &whole, &text, at(23, 3), &[0; 4]);
    let alike = index(&[file(b"a", b"A"), file(b"b", b"B"), file(b"a", b"A")]);
    let (_, text) = export(counts, "a shared name", &alike, &[0xee; 108]);
    says(counts, "an export in which a name has one sum", &alike, &text, accepted(3), &[1, 1, 1]);
}

/// "The earliest faulty line counts": a line of another shape and a name with another sum, each before the other; an unended line last of all.
fn earliest(counts: &mut Counts) {
    let whole = index(&[file(b"a", b"A"), file(b"b", b"B")]);
    let (right, again, shape) = (line(b"a", b"A"), line(b"b", b"A"), b"x\n".to_vec());
    for n in 0..5 {
        let before = [right.repeat(n), line(b"x", b"unlisted"), line(b"y", b"unlisted")].concat();
        let text = |lines: &[&[u8]]| [&before[..], &lines.concat()].concat();
        says(counts, "22 before 23", &whole, &text(&[&right, &shape, &again]), at(22, n + 4), &[0; 2]);
        says(counts, "23 before 22", &whole, &text(&[&right, &again, &shape]), at(23, n + 4), &[0; 2]);
        says(counts, "23 before an unended line", &whole, &text(&[&right, &again, &right[..35]]), at(23, n + 4), &[0; 2]);
        says(counts, "an unended line that would be 23", &whole, &text(&[&right, &again[..35]]), at(22, n + 4), &[0; 2]);
        says(counts, "two of 23", &whole, &text(&[&right, &line(b"b", b"B"), &line(b"c", b"B"), &again]), at(23, n + 5), &[0; 2]);
        says(counts, "two of 23 the other way", &whole, &text(&[&right, &line(b"b", b"B"), &again, &line(b"c", b"B")]), at(23, n + 5), &[0; 2]);
        says(counts, "a sum of before again", &whole, &text(&[&right, &again, &right]), at(23, n + 4), &[0; 2]);
    }
    let many = line(b"z", b"unlisted").repeat(if small() { 100 } else { 70_000 });
    let lines = many.len() / 43;
    says(counts, "a late line", &whole, &[&many[..], &shape].concat(), at(22, lines + 1), &[0; 2]);
    says(counts, "a late sum", &whole, &[&right[..], &many, &again].concat(), at(23, lines + 2), &[0; 2]);
    says(counts, "a late right one", &whole, &[&many[..], &right].concat(), accepted(2), &[1, 0]);
}

/// Those of reading first, of any text; then the text's; 14 last. In an export 24 stands in the text's place.
fn in_order(counts: &mut Counts) {
    let whole = index(&[file(b"a", b"A"), file(b"b", b"B")]);
    let unfit = index(&[file(b"a", b"A"), file(b"b", b"\x7f")]);
    let (shape, again, right) = (b"x\n".to_vec(), [line(b"a", b"A"), line(b"b", b"A")].concat(), line(b"a", b"A"));
    for room in [0, 1, 2, 99] {
        let room = vec![0xee; room];
        for (number, refused) in refused_files() {
            for text in [&shape, &again, &right] {
                let got = import(counts, "a refused file", &refused, text, &room);
                counts.same(|| format!("{number} before the text's"), (got.0 % 32, &got.1), (number as u64, &room));
            }
            let got = export(counts, "a refused file", &refused, &room);
            counts.same(|| format!("{number} before 24"), (got.0 % 32, &got.1), (number as u64, &room));
        }
        for (text, answer) in [(&shape, at(22, 1)), (&again, at(23, 2)), (&right, if room.len() < 2 { 14 } else { accepted(2) })] {
            let got = import(counts, "in a room", &whole, text, &room);
            counts.same(|| format!("{answer} with {} bytes", room.len()), got.0, answer);
        }
        let got = export(counts, "a name that does not fit", &unfit, &room);
        counts.same(|| "24 before 14".into(), got, (24, room));
    }
    let text = [line(b"a", b"A"), line(b"b", b"B")].concat();
    for n in 0..=text.len() + 3 {
        let got = export(counts, "rooms", &whole, &vec![0xee; n]);
        let want = if n < text.len() { (14, vec![0xee; n]) } else { (accepted(text.len()), [&text[..], &vec![0xee; n - text.len()]].concat()) };
        counts.same(|| format!("an export into {n} bytes"), got, want);
    }
}

/// Random lists of few names, texts of lines for these and others, right and wrong; then the export imported again.
fn random_texts(counts: &mut Counts, random: &mut Random) {
    let names: [&[u8]; 7] = [b"A", b"B", b"AB", b"A B", b"A.LOG", b"\x7f", b"\xc4"];
    let contents: [&[u8]; 3] = [b"", b"1", b"22"];
    for _ in 0..rounds(20_000) {
        let whole = index(&(0..random.below(6)).map(|_| file(contents[random.below(3)], names[random.below(7)])).collect::<Vec<_>>());
        let mut text = vec![];
        for _ in 0..random.below(8) {
            let mut one = line(contents[random.below(3)], [&names[..], &[b"other"]].concat()[random.below(8)]);
            match random.below(30) {
                0 => drop(one.remove(random.below(36))),
                1 => one.insert(random.below(36), b'0'),
                2 => one[random.below(34)] ^= 1 << random.below(8),
                _ => (),
            }
            text.extend(one);
        }
        let n = text.len();
        text.truncate(n - [0, 0, 0, 0, 0, 0, 0, 1][random.below(8)].min(n));
        import(counts, "a random text", &whole, &text, &vec![0xee; random.below(9)]);
        let (answer, exported) = export(counts, "a random list", &whole, &[0xee; 300]);
        if answer % 32 == 0 {
            import(counts, "an export again", &whole, &exported[..(answer / 32) as usize], &[0xee; 9]);
        }
    }
}

/// The most saved files that there are and more that are not, in an export and in a text of many lines.
fn many(counts: &mut Counts, random: &mut Random) {
    let saved = |i: usize, contents: Vec<u8>| File { status: (i < 254) as u64, ..file(&contents, format!("FILE{i}.LOG").as_bytes()) };
    let files: Vec<File> = (0..1000).map(|i| saved(i, random.bytes(3))).collect();
    let whole = index(&files);
    let (answer, text) = export(counts, "many files", &whole, &vec![0xee; 100_000]);
    let text = &text[..(answer / 32) as usize];
    says(counts, "an export of many files", &whole, text, accepted(1000), &[1; 1000]);
    let mut lines: Vec<&[u8]> = text.split_inclusive(|&b| b == 10).collect();
    for i in 0..1000 {
        lines.swap(i, random.below(1000));
    }
    says(counts, "its lines in any order, twice", &whole, &lines.concat().repeat(2), accepted(1000), &[1; 1000]);
    import(counts, "random bytes", &whole, &random.bytes(3000), &[0xee; 1000]);
}

pub fn run(counts: &mut Counts, random: &mut Random) {
    by_hand(counts);
    shapes(counts);
    each_byte(counts);
    lengths(counts, random);
    fits(counts);
    shared_names(counts);
    earliest(counts);
    in_order(counts);
    random_texts(counts, random);
    many(counts, random);
}
