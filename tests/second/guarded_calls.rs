//! The calls of a round beside guard pages, each with inputs of its own kind.

use crate::amend::Amendment;
use crate::catalog::{HEAD, ROW};
use crate::compare_faults::put;
use crate::compare_hash_job::random_hash;
use crate::compare_par1::rehashed;
use crate::compare_read_job::random_job;
use crate::guarded::Round;
use crate::inventory::{Change, LENGTH};
use crate::jobs::{mul_add_refused, number, read_refused, Hash, HASH, MOST, MUL_ADD, MUL_ADD_ENDED, READ, READ_ENDED, TOTAL};
use crate::par1::PARTS;
use crate::{calls, catalog_calls, differences, expected, field, job_calls, md5sum, par1, replay};

impl Round<'_> {
    pub fn any_call(&mut self) {
        match self.inputs.random.below(44) {
            0 => self.md5(),
            1 => self.inverse(),
            2 => self.coefficient(),
            3 => self.mul_add(),
            4 | 5 => self.read(),
            6 => self.entry(),
            7 => self.write_entry(),
            8 | 9 => self.write_volume(),
            10 | 11 => self.amend(),
            12 => self.compare(),
            13 => self.export(),
            14 | 15 => self.import(),
            16 => self.catalog_open(),
            17 | 18 => self.catalog_add(),
            19 => self.catalog_drop(),
            20 => self.catalog_load(),
            21 => self.check(),
            22 => self.hash_start(),
            23 | 24 => self.hash_push(),
            25 => self.hash_end(),
            26 => self.mul_add_start(),
            27 | 28 => self.mul_add_push(),
            29 => self.mul_add_end(),
            30 => self.read_start(),
            31..=33 => self.read_push(),
            34 => self.read_end(),
            35 => self.open(),
            36..=40 => self.change(),
            41 => self.count(),
            42 => self.query(),
            _ => self.replay(),
        }
    }

    fn md5(&mut self) {
        let (bytes, room) = (self.inputs.bytes(200), self.inputs.room(16));
        let want = expected::md5(&bytes, &room);
        self.both("par1_md5", || calls::md5(&bytes, &room), want);
    }

    fn inverse(&mut self) {
        let (x, room) = (self.inputs.random.below(256) as u8, self.inputs.room(1));
        let x = if self.inputs.random.one_in(8) { 0 } else { x };
        self.both("par1_inverse", || calls::inverse(x, &room), expected::inverse(x, &room));
    }

    fn coefficient(&mut self) {
        let (code, f, v, room) = (self.inputs.code(), self.inputs.number(), self.inputs.number(), self.inputs.room(1));
        self.both("par1_coefficient", || calls::coefficient(code, f, v, &room), expected::coefficient(code, f, v, &room));
    }

    fn mul_add(&mut self) {
        let (weight, fragment, buffer) = (self.inputs.random.below(256) as u8, self.inputs.bytes(100), self.inputs.bytes(100));
        let want = field::mul_add(weight, &fragment, &buffer);
        let add = |out, len| calls::mul_add(weight, &fragment, unsafe { std::slice::from_raw_parts_mut(out, len) });
        self.both("par1_mul_add", || calls::guarded(&buffer, add).1, want);
    }

    fn read(&mut self) {
        let (file, room) = (self.inputs.any_file(), self.inputs.room(PARTS));
        let want = expected::read(&file, &room);
        self.both("par1_read", || calls::read(&file, &room), want);
    }

    fn entry(&mut self) {
        let list = self.inputs.parts().0;
        let (list, room) = (self.inputs.any(&list), self.inputs.room(24));
        let want = expected::entry(&list, &room);
        self.both("par1_entry", || calls::entry(&list, &room), want);
    }

    fn write_entry(&mut self) {
        let file = self.inputs.random.pick(&self.inputs.set);
        let (contents, name) = (self.inputs.any(&file.contents), self.inputs.any(&file.name));
        let status = if self.inputs.random.one_in(6) { self.inputs.number() } else { self.inputs.random.below(2) as u64 };
        let room = self.inputs.room(56 + name.len());
        let want = expected::write_entry(&contents, status, &name, &room);
        self.both("par1_write_entry", || calls::write_entry(&contents, status, &name, &room), want);
    }

    fn write_volume(&mut self) {
        let (list, data) = self.inputs.parts();
        let (list, data) = (self.inputs.any(&list), self.inputs.any(&data));
        let (code, program, number) = (self.inputs.code(), self.inputs.number() as u32, self.inputs.number());
        let room = self.inputs.room(96 + list.len() + data.len());
        let want = expected::write_volume(code, program, number, &list, &data, &room);
        self.both("par1_write_volume", || calls::write_volume(code, program, number, &list, &data, &room), want);
    }

    /// An amendment that the volume takes: inside a saved file or on its end, with an entry whose hashes are any. An index takes none.
    fn amendment(&mut self, volume: &[u8]) -> Amendment {
        let parts = par1::read(volume).expect("a volume that was written");
        let (file, mut at, mut saved) = (1 + self.inputs.random.below(parts[3].max(1) as usize) as u64, 96, 0);
        let (entry, length) = loop {
            let (entry, length) = par1::entry(&volume[at..parts[5] as usize]).expect("an entry of a list that was read");
            saved += entry.status % 2;
            if saved == file {
                break (entry, length);
            }
            at += length;
        };
        let mut bytes = volume[at..at + length].to_vec();
        bytes[24..56].copy_from_slice(&self.inputs.random.bytes(32));
        if self.inputs.random.one_in(2) {
            let new = self.inputs.bytes(60);
            put(&mut bytes, 16, entry.size + new.len() as u64);
            return Amendment { file, place: entry.size, old: vec![], new, entry: bytes };
        }
        let place = self.inputs.random.below(entry.size as usize + 1);
        let length = self.inputs.random.below(entry.size as usize + 1 - place);
        let [old, new] = [(); 2].map(|_| self.inputs.random.bytes(length));
        Amendment { file, place: place as u64, old, new, entry: bytes }
    }

    /// The volume after it stands in the place of the one before.
    fn amend(&mut self) {
        let which = self.inputs.random.below(self.inputs.files.len());
        let volume = self.inputs.files[which].clone();
        let mut a = self.amendment(&volume);
        match self.inputs.random.below(16) {
            0 => a.file = self.inputs.number(),
            1 => a.place = self.inputs.number(),
            2 => a.old = self.inputs.bytes(20),
            3 => a.new = self.inputs.bytes(20),
            4 => a.entry = self.inputs.any(&a.entry),
            _ => (),
        }
        let mut room = [volume.clone(), self.inputs.room(a.new.len())].concat();
        let mut length = volume.len() as u64;
        match self.inputs.random.below(16) {
            0 => room = self.inputs.any_file(),
            1 => room = self.inputs.changed(room),
            2 => length = self.inputs.number(),
            _ => (),
        }
        let want = expected::amend(&room, length, &a);
        let (answer, after) = self.both("par1_amend", || calls::amend(&room, length, &a), want);
        if answer % 32 == 0 {
            self.inputs.files[which] = after[..(answer / 32) as usize].to_vec();
        }
    }

    fn compare(&mut self) {
        let one = self.inputs.any_file();
        let two = if self.inputs.random.one_in(3) { rehashed(self.inputs.changed(one.clone())) } else { self.inputs.any_file() };
        let room = self.inputs.room(differences::compare(&one, &two).len());
        let want = expected::compare(&one, &two, &room);
        self.both("par1_compare", || calls::compare(&one, &two, &room), want);
    }

    fn export(&mut self) {
        let file = self.inputs.any_file();
        let room = self.inputs.room(md5sum::export(&file).map_or(9, |text| text.len()));
        let want = expected::export(&file, &room);
        self.both("par1_export", || calls::export(&file, &room), want);
    }

    /// The text of the export of the same file, whole or changed, once or twice, or of a file with other sums.
    fn import(&mut self) {
        let (file, other) = (self.inputs.any_file(), self.inputs.file());
        let [own, other] = [&file, &other].map(|file| md5sum::export(file).unwrap_or_default());
        let text = self.inputs.random.pick(&[&own[..], &other]);
        let text = if self.inputs.random.one_in(3) { [&own, text].concat() } else { text.to_vec() };
        let (text, room) = (self.inputs.any(&text), self.inputs.room(file.get(56).map_or(0, |&n| n as usize)));
        let want = expected::import(&file, &text, &room);
        self.both("par1_import", || calls::import(&file, &text, &room), want);
    }

    /// A file now and then has an entry more than a catalog takes.
    fn catalog_open(&mut self) {
        let many = || par1::write_volume(field::Code::Cauchy, 1, 0, &par1::write_entry(b"", 0, b"A\0").unwrap().repeat(1025), b"").unwrap();
        let file = if self.inputs.random.one_in(200) { many() } else { self.inputs.any_file() };
        let room = self.inputs.room(HEAD + ROW * file.get(56).map_or(0, |&n| n as usize));
        let want = expected::catalog_open(&file, &room);
        let (answer, after) = self.both("par1_catalog_open", || catalog_calls::open(&file, &room), want);
        if answer % 32 == 0 && (self.inputs.catalog.is_empty() || self.inputs.random.one_in(3)) {
            let spare = self.inputs.random.pick(&[0, ROW - 1, ROW, 2 * ROW + 5, 9 * ROW]);
            self.inputs.catalog = [&after[..(answer / 32) as usize], &self.inputs.random.bytes(spare)].concat();
        }
    }

    fn any_catalog(&mut self) -> Vec<u8> {
        let catalog = self.inputs.catalog.clone();
        if self.inputs.random.one_in(3) { self.inputs.any(&catalog) } else { catalog }
    }

    fn catalog_add(&mut self) {
        let (room, volume) = (self.any_catalog(), self.inputs.any_file());
        let want = expected::catalog_add(&room, &volume);
        let (answer, after) = self.both("par1_catalog_add", || catalog_calls::add(&room, &volume), want);
        if answer % 32 == 0 {
            self.inputs.catalog = after;
        }
    }

    fn catalog_drop(&mut self) {
        let (room, number) = (self.any_catalog(), self.inputs.member());
        let want = expected::catalog_drop(&room, number);
        let (answer, after) = self.both("par1_catalog_drop", || catalog_calls::drop(&room, number), want);
        if answer % 32 == 0 {
            self.inputs.catalog = after;
        }
    }

    fn catalog_load(&mut self) {
        let catalog = self.any_catalog();
        let entries = catalog.first().map_or(0, |&n| n as usize);
        let records = self.inputs.random.pick(&[0, entries.saturating_sub(1), entries, entries, entries + 1, entries + 9]);
        let want = expected::catalog_load(&catalog, records);
        self.both("par1_catalog_load", || catalog_calls::load(&catalog, records), want);
    }

    fn check(&mut self) {
        let file = self.inputs.random.pick(&self.inputs.set);
        let (entry, contents) = (self.inputs.any(&file.entry()), self.inputs.any(&file.contents));
        let want = par1::check(&entry, &contents);
        self.both("par1_check", || calls::check(&entry, &contents), want);
    }

    /// The running hash, or now and then another: any bytes, or words, tail and total that go together.
    fn any_hash(&mut self) -> Hash {
        match self.inputs.random.below(8) {
            0 => Hash::of(&self.inputs.random.bytes(96)),
            1 => random_hash(&mut self.inputs.random),
            _ => self.inputs.hash,
        }
    }

    /// The hash that runs is the one after a call on it.
    fn goes_on(&mut self, before: Hash, after: Hash) {
        if before == self.inputs.hash {
            self.inputs.hash = after;
        }
    }

    fn hash_start(&mut self) {
        let hash = self.any_hash();
        self.inputs.hash = self.both("par1_hash_start", || job_calls::hash_start(&hash), HASH);
    }

    fn hash_push(&mut self) {
        let (hash, bytes) = (self.any_hash(), self.inputs.bytes(150));
        let waiting = hash.total as usize % 64;
        let shaped = hash.ended != 0 || hash.tail[waiting..].iter().all(|&b| b == 0);
        let want = if shaped { expected::hash_push(&hash, &bytes) } else { job_calls::hash_push(&hash, &bytes) };
        let after = self.both("par1_hash_push", || job_calls::hash_push(&hash, &bytes), want).1;
        self.goes_on(hash, after);
    }

    fn hash_end(&mut self) {
        let (hash, room) = (self.any_hash(), self.inputs.room(16));
        let want = job_calls::hash_end(&hash, &room);
        let number = expected::hash_end(&hash, &room).0;
        self.same(|| format!("the end of {hash:?}"), (want.0, want.1.ended != 0), (number, true));
        let after = self.both("par1_hash_end", || job_calls::hash_end(&hash, &room), want).1;
        self.goes_on(hash, after);
    }

    /// A job, or now and then its bytes changed, of another length, or any.
    fn any_mul_add(&mut self) -> Vec<u8> {
        let job = self.inputs.mul_add.clone();
        if self.inputs.random.one_in(4) { self.inputs.any(&job) } else { job }
    }

    fn mul_add_start(&mut self) {
        let (weight, room) = (self.inputs.random.below(256) as u8, self.inputs.room(MUL_ADD));
        let (number, after) = self.both("par1_mul_add_start", || job_calls::mul_add_start(weight, &room), expected::mul_add_start(weight, &room));
        if number == 0 {
            self.inputs.mul_add = after[..MUL_ADD].to_vec();
        }
    }

    fn mul_add_push(&mut self) {
        let (job, fragment, buffer) = (self.any_mul_add(), self.inputs.bytes(80), self.inputs.bytes(150));
        let want = expected::mul_add_push(&job, &fragment, &buffer);
        let (number, after, _) = self.both("par1_mul_add_push", || job_calls::mul_add_push(&job, &fragment, &buffer), want);
        if number == 0 {
            self.inputs.mul_add = after;
        }
    }

    fn mul_add_end(&mut self) {
        let job = self.any_mul_add();
        let want = job_calls::mul_add_end(&job);
        let refused = mul_add_refused(&job);
        let kept = if refused { want.1 == job } else { number(&want.1, MUL_ADD_ENDED) != 0 };
        self.same(|| format!("the end of {job:?}"), (want.0, kept), (if refused { 20 } else { 0 }, true));
        self.both("par1_mul_add_end", || job_calls::mul_add_end(&job), want);
    }

    /// The reading that runs, and whether what was pushed to it is known; or now and then other bytes.
    fn any_reading(&mut self) -> (Vec<u8>, bool) {
        let job = self.inputs.reading.clone();
        match self.inputs.random.below(16) {
            0 => (random_job(&mut self.inputs.random), false),
            1 => (self.inputs.changed(job), false),
            _ => (job, self.inputs.pushed.is_some()),
        }
    }

    fn read_start(&mut self) {
        let room = self.inputs.room(READ);
        let want = if room.len() < READ { (14, room.clone()) } else { (0, [&self.inputs.fresh[..], &room[READ..]].concat()) };
        let (number, after) = self.both("par1_read_start", || job_calls::read_start(&room), want);
        if number == 0 && (read_refused(&self.inputs.reading) || self.inputs.random.one_in(4)) {
            self.inputs.reading = after[..READ].to_vec();
            self.inputs.pushed = Some(0);
            self.inputs.source = self.inputs.any_file();
        }
    }

    /// The next bytes of the file that is being read, all of them or some.
    fn read_push(&mut self) {
        let (job, known) = self.any_reading();
        let from = self.inputs.pushed.unwrap_or(0);
        let rest = self.inputs.source.len() - from;
        let length = if self.inputs.random.one_in(3) { rest } else { self.inputs.random.below(90).min(rest) };
        let bytes = self.inputs.source[from..from + length].to_vec();
        let want = job_calls::read_push(&job, &bytes);
        let refused = read_refused(&job);
        if refused {
            self.same(|| format!("a push to {job:?}"), (want.0, &want.1), (20, &job));
        } else {
            let total = (number(&job, TOTAL) + length as u64).min(MOST);
            self.same(|| format!("a push to {job:?}"), (want.0, number(&want.1, TOTAL), read_refused(&want.1)), (0, total, false));
        }
        let (_, after) = self.both("par1_read_push", || job_calls::read_push(&job, &bytes), want);
        if !refused {
            self.inputs.reading = after;
            self.inputs.pushed = known.then_some(from + length);
        }
    }

    fn read_end(&mut self) {
        let ((job, known), room) = (self.any_reading(), self.inputs.room(PARTS));
        let want = job_calls::read_end(&job, &room);
        let refused = read_refused(&job);
        let kept = if refused { want.1 == job } else { number(&want.1, READ_ENDED) != 0 };
        let told = if want.0 == 0 { want.2[PARTS..] == room[PARTS..] } else { want.2 == room };
        self.same(|| format!("the end of {job:?}"), (want.0 % 32 == 20, kept, told), (refused, true, true));
        if let (Some(pushed), false, true) = (self.inputs.pushed, refused, known) {
            let whole = expected::read(&self.inputs.source[..pushed], &room);
            self.same(|| format!("the end after {pushed} bytes"), (want.0, &want.2), (whole.0, &whole.1));
        }
        let (_, after, _) = self.both("par1_read_end", || job_calls::read_end(&job, &room), want);
        if !refused {
            self.inputs.reading = after;
        }
    }

    /// Few files, or now and then as many as there can be.
    fn open(&mut self) {
        let n = if self.inputs.random.one_in(60) { self.inputs.number() } else { 1 + self.inputs.random.below(5) as u64 };
        let count = if self.inputs.random.one_in(8) { self.inputs.random.below(8) } else { n.min(256) as usize };
        let most = if self.inputs.random.one_in(8) { 5 } else { 3 };
        let size = |random: &mut crate::Random| [0, 1, 16_777_216, 16_777_217, u64::MAX][random.below(most)];
        let mut sizes: Vec<u8> = (0..count).flat_map(|_| size(&mut self.inputs.random).to_le_bytes()).collect();
        if self.inputs.random.one_in(16) {
            sizes = self.inputs.changed(sizes);
        }
        let (code, room) = (self.inputs.code(), self.inputs.room(LENGTH));
        let want = expected::open(code, n, &sizes, &room);
        let (number, after) = self.both("par1_open", || calls::open(code, n, &sizes, &room), want);
        if number == 0 && (self.inputs.inventory.is_empty() || self.inputs.random.one_in(5)) {
            self.inputs.inventory = after[..LENGTH].to_vec();
        }
    }

    fn any_inventory(&mut self) -> Vec<u8> {
        let inventory = self.inputs.inventory.clone();
        if self.inputs.random.one_in(8) { self.inputs.any(&inventory) } else { inventory }
    }

    fn change(&mut self) {
        let (inventory, number, code) = (self.any_inventory(), self.inputs.member(), self.inputs.code());
        let (name, change) = match self.inputs.random.below(8) {
            0 | 1 => ("par1_add_file", Change::AddFile),
            2 => ("par1_remove_file", Change::RemoveFile),
            3 | 4 => ("par1_add_volume", Change::AddVolume(code)),
            5 => ("par1_remove_volume", Change::RemoveVolume),
            6 => ("par1_quarantine", Change::SetAside),
            _ => ("par1_release", Change::TakeBack),
        };
        let want = expected::change(&inventory, change, number);
        let (number, after) = self.both(name, || calls::change(&inventory, change, number), want);
        if number == 0 {
            self.inputs.inventory = after;
        }
    }

    fn count(&mut self) {
        let (inventory, room) = (self.any_inventory(), self.inputs.room(24));
        let want = expected::count(&inventory, &room);
        self.both("par1_count", || calls::count(&inventory, &room), want);
    }

    fn query(&mut self) {
        let (inventory, file, room) = (self.any_inventory(), self.inputs.member(), self.inputs.room(255));
        let want = expected::query(&inventory, file, &room);
        self.both("par1_query", || calls::query(&inventory, file, &room), want);
    }

    /// A log of few files and events; now and then one that is a byte too long.
    fn log(&mut self) -> Vec<u8> {
        if self.inputs.random.one_in(500) {
            return b"1 1\n".iter().chain([b'F', b' ', b'1', 10].iter().cycle()).copied().take(65_537).collect();
        }
        let n = 1 + self.inputs.random.below(4);
        let sizes: String = (0..n).map(|_| format!(" {}", self.inputs.number().min(16_777_217))).collect();
        let mut log = format!("{n}{sizes}\n");
        for _ in 0..self.inputs.random.below(8) {
            let letter = self.inputs.random.pick(&['F', 'V', 'V', 'f', 'v']);
            log += &format!("{letter} {}\n", self.inputs.member());
        }
        self.inputs.any(log.as_bytes())
    }

    fn replay(&mut self) {
        let log = self.log();
        let room = self.inputs.room(replay::replay(&log).len());
        let want = expected::replay(&log, &room);
        self.both("par1_replay", || calls::replay(&log, &room), want);
    }
}
