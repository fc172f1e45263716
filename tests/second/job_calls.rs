//! The C library's calls on jobs. A job and a room that a call writes have guard bytes on both sides. Each call gets a copy of the job, so a job
//! is moved between any two calls.

use crate::calls::{guarded, lent};
use crate::jobs::Hash;
use crate::pages::{self, readable};
use crate::refusals::{counted, Call};

extern "C" {
    fn par1_hash_start(hash: *mut Hash);
    fn par1_hash_push(hash: *mut Hash, bytes: *const u8, bytes_len: usize) -> u32;
    fn par1_hash_end(hash: *mut Hash, out: *mut u8, out_len: usize) -> u32;
    fn par1_mul_add_start(weight: u8, job: *mut u8, job_len: usize) -> u32;
    fn par1_mul_add_push(job: *mut u8, job_len: usize, fragment: *const u8, fragment_len: usize, buffer: *mut u8, buffer_len: usize) -> u32;
    fn par1_mul_add_end(job: *mut u8, job_len: usize) -> u32;
    fn par1_read_start(job: *mut u8, job_len: usize) -> u32;
    fn par1_read_push(job: *mut u8, job_len: usize, bytes: *const u8, bytes_len: usize) -> u32;
    fn par1_read_end(job: *mut u8, job_len: usize, out: *mut u8, out_len: usize) -> u64;
}

/// Lends a copy of `hash` with guard numbers around it: the call's answer, and the hash after it.
fn owned<A>(hash: &Hash, call: impl FnOnce(*mut Hash) -> A) -> (A, Hash) {
    if let Some(side) = pages::side() {
        let (answer, after) = pages::lent(side, &hash.bytes(), |bytes, _| call(bytes.cast()));
        return (answer, Hash::of(&after));
    }
    #[repr(C)]
    struct Guarded {
        before: [u64; 4],
        hash: Hash,
        after: [u64; 4],
    }
    let mut space = Guarded { before: [!5; 4], hash: *hash, after: [!7; 4] };
    let answer = call(&mut space.hash);
    assert!(space.before == [!5; 4] && space.after == [!7; 4], "a byte outside the hash was written");
    (answer, space.hash)
}

pub fn hash_start(hash: &Hash) -> Hash {
    owned(hash, |hash| unsafe { par1_hash_start(hash) }).1
}

pub fn hash_push(hash: &Hash, bytes: &[u8]) -> (u32, Hash) {
    let [bytes] = readable([bytes]);
    let (answer, after) = owned(hash, |hash| unsafe { par1_hash_push(hash, bytes.as_ptr(), bytes.len()) });
    (counted(Call::HashPush, answer), after)
}

/// The number, the hash after it, the room after it.
pub fn hash_end(hash: &Hash, room: &[u8]) -> (u32, Hash, Vec<u8>) {
    let ((number, room), hash) = owned(hash, |hash| lent(Call::HashEnd, room, |out, len| unsafe { par1_hash_end(hash, out, len) }));
    (number, hash, room)
}

pub fn mul_add_start(weight: u8, room: &[u8]) -> (u32, Vec<u8>) {
    lent(Call::MulAddStart, room, |job, len| unsafe { par1_mul_add_start(weight, job, len) })
}

/// The number, the job after it, the buffer after it.
pub fn mul_add_push(job: &[u8], fragment: &[u8], buffer: &[u8]) -> (u32, Vec<u8>, Vec<u8>) {
    let [fragment] = readable([fragment]);
    let push = |job, job_len, out, len| unsafe { par1_mul_add_push(job, job_len, fragment.as_ptr(), fragment.len(), out, len) };
    let ((number, buffer), job) = guarded(job, |job, job_len| lent(Call::MulAddPush, buffer, |out, len| push(job, job_len, out, len)));
    (number, job, buffer)
}

pub fn mul_add_end(job: &[u8]) -> (u32, Vec<u8>) {
    lent(Call::MulAddEnd, job, |job, len| unsafe { par1_mul_add_end(job, len) })
}

pub fn read_start(room: &[u8]) -> (u32, Vec<u8>) {
    lent(Call::ReadStart, room, |job, len| unsafe { par1_read_start(job, len) })
}

pub fn read_push(job: &[u8], bytes: &[u8]) -> (u32, Vec<u8>) {
    let [bytes] = readable([bytes]);
    lent(Call::ReadPush, job, |job, len| unsafe { par1_read_push(job, len, bytes.as_ptr(), bytes.len()) })
}

/// The answer, the job after it, the room after it.
pub fn read_end(job: &[u8], room: &[u8]) -> (u64, Vec<u8>, Vec<u8>) {
    let ((answer, room), job) = guarded(job, |job, job_len| lent(Call::ReadEnd, room, |out, len| unsafe { par1_read_end(job, job_len, out, len) }));
    (answer, job, room)
}
