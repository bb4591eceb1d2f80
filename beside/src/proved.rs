//! The proved library, called safely.

/// An answer as two numbers: 0 and what was asked for, or the number of a refusal and what it tells.
#[repr(C)]
#[derive(Clone, Copy, Debug, PartialEq, Eq)]
pub struct Answer {
    pub number: usize,
    pub tells: usize,
}

/// The number that stands for want of memory.
const NO_MEMORY: usize = 255;

extern "C" {
    fn station_check(
        file: *const u8,
        file_length: usize,
        allocation: *const u8,
        allocation_length: usize,
        out: *mut u8,
        out_length: usize,
    ) -> Answer;

    fn station_read(file: *const u8, file_length: usize) -> Answer;

    fn station_tables(file: *const u8, file_length: usize, out: *mut u64, out_length: usize) -> Answer;

    fn station_play(
        file: *const u8,
        file_length: usize,
        script: *const u8,
        script_length: usize,
        out: *mut u64,
        out_length: usize,
    ) -> Answer;
}

/// The answer, which must not be want of memory.
fn given(answer: Answer) -> Answer {
    assert_ne!(answer.number, NO_MEMORY, "no memory");
    answer
}

/// Writes what checker prints into the front of a buffer.
pub fn check(file: &[u8], allocation: &[u8], out: &mut [u8]) -> Answer {
    // the slices are valid for their lengths during the call, and `out` is lent to it alone
    given(unsafe {
        station_check(file.as_ptr(), file.len(), allocation.as_ptr(), allocation.len(), out.as_mut_ptr(), out.len())
    })
}

/// Reads a table file: 0 and 0, or its first fault.
pub fn read(file: &[u8]) -> Answer {
    // as above
    given(unsafe { station_read(file.as_ptr(), file.len()) })
}

/// Reads a table file, and gives all that it says but the names as numbers.
pub fn tables(file: &[u8]) -> (Answer, Vec<u64>) {
    let mut out = vec![0; 2_000];
    // as above
    let answer = given(unsafe { station_tables(file.as_ptr(), file.len(), out.as_mut_ptr(), out.len()) });
    out.truncate(if answer.number == 0 { answer.tells } else { 0 });
    (answer, out)
}

/// Plays a script on the plan of a table file, and gives what each call answers as numbers; at most `most` of them.
pub fn play(file: &[u8], script: &[u8], most: usize) -> Vec<u64> {
    let mut out = vec![0; most];
    // as above
    let answer = given(unsafe {
        station_play(file.as_ptr(), file.len(), script.as_ptr(), script.len(), out.as_mut_ptr(), out.len())
    });
    assert_eq!(answer.number, 0);
    out.truncate(answer.tells);
    out
}
