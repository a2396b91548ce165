//! The commands.

#[repr(C)]
struct Word {
    text: *const u8,
    length: usize,
}

// A slice is one parameter in crates/pb_c_call/src/exports.rt, and here its pointer and its length.
unsafe extern "C" {
    fn pb_call(
        words: *const Word,
        count: usize,
        input: *const u8,
        length: usize,
        output: *mut u8,
        room: usize,
        needed: *mut usize,
    ) -> u8;
    fn pb_check(text: *const u8, length: usize, output: *mut u8, room: usize, needed: *mut usize) -> u8;
    fn pb_claims(text: *const u8, length: usize, output: *mut u8, room: usize, needed: *mut usize) -> u8;
    fn pb_plan(texts: *const u8, length: usize, output: *mut u8, room: usize, needed: *mut usize) -> u8;
}

/// Calls with more and more room, until there is enough for the reply.
fn reply(mut call: impl FnMut(*mut u8, usize, &mut usize) -> u8) -> (u8, Vec<u8>) {
    let mut output = vec![0; 4_096];
    loop {
        let mut needed = 0;
        let status = call(output.as_mut_ptr(), output.len(), &mut needed);
        if needed <= output.len() {
            output.truncate(needed);
            return (status, output);
        }
        output.resize(needed, 0);
    }
}

/// Does what `parbegin` does with these words and this input, and returns its exit status and what it writes. `run`,
/// `exec`, and `record` without a seed, which start threads, get the status 7 and an empty reply.
#[must_use]
pub fn call(words: &[&str], input: &[u8]) -> (u8, Vec<u8>) {
    let words: Vec<Word> =
        words.iter().map(|word| Word { text: word.as_ptr(), length: word.len() }).collect();
    // SAFETY: references to whole values, for the call.
    reply(|output, room, needed| unsafe {
        pb_call(words.as_ptr(), words.len(), input.as_ptr(), input.len(), output, room, needed)
    })
}

/// Returns what `parbegin check` writes of a text, and its exit status.
#[must_use]
pub fn check(text: &[u8]) -> (u8, Vec<u8>) {
    // SAFETY: references to whole values, for the call.
    reply(|output, room, needed| unsafe { pb_check(text.as_ptr(), text.len(), output, room, needed) })
}

/// Returns what `parbegin claims` writes of a text, and its exit status.
#[must_use]
pub fn claims(text: &[u8]) -> (u8, Vec<u8>) {
    // SAFETY: references to whole values, for the call.
    reply(|output, room, needed| unsafe { pb_claims(text.as_ptr(), text.len(), output, room, needed) })
}

/// Returns what `parbegin plan` writes of these texts, whose processes run beside one another, and its exit status.
#[must_use]
pub fn plan(texts: &[&[u8]]) -> (u8, Vec<u8>) {
    let joined = join(texts);
    // SAFETY: references to whole values, for the call.
    reply(|output, room, needed| unsafe { pb_plan(joined.as_ptr(), joined.len(), output, room, needed) })
}

/// Returns texts with lines `%%` between them.
fn join(texts: &[&[u8]]) -> Vec<u8> {
    let mut joined = Vec::new();
    for (number, text) in texts.iter().enumerate() {
        if number > 0 {
            let ends = joined.is_empty() || joined.ends_with(b"\n");
            let mark: &[u8] = if ends { b"%%\n" } else { b"\n%%\n" };
            joined.extend_from_slice(mark);
        }
        joined.extend_from_slice(text);
    }
    joined
}
