// A Rust program that links the C library: the two calls that it makes, and a table over arrays of its own. They are declared so that they
// are the same call on every processor: counts of 64 bits, and the answer through a pointer, which is what a struct of this size comes by on
// x86-64 too. Only the names differ.

/// An answer, as `moss_answer` of include/mosspillow.h.
#[repr(C)]
#[derive(Default)]
struct Answer {
    refusal: u64,
    which: u64,
    key: u64,
    value: u64,
    slot: u64,
    examined: u64,
    walk: u64,
    offset: u64,
    length: u64,
}

const FOUND: u64 = 6;

extern "C" {
    #[cfg_attr(not(target_arch = "x86_64"), link_name = "moss_int_map_insert_wide")]
    fn moss_int_map_insert(
        answer: *mut Answer, marks: *mut u8, marks_count: u64, keys: *mut u64, keys_count: u64, values: *mut u64, values_count: u64, key: u64,
        value: u64,
    ) -> *mut Answer;
    #[cfg_attr(not(target_arch = "x86_64"), link_name = "moss_int_map_get_wide")]
    fn moss_int_map_get(
        answer: *mut Answer, marks: *const u8, marks_count: u64, keys: *const u64, keys_count: u64, values: *const u64, values_count: u64,
        key: u64,
    ) -> *mut Answer;
}

/// A table of S slots; all zeros it is empty.
struct IntMap<const S: usize> {
    marks: [u8; S],
    keys: [u64; S],
    values: [u64; S],
}

impl<const S: usize> IntMap<S> {
    fn new() -> Self {
        IntMap { marks: [0; S], keys: [0; S], values: [0; S] }
    }

    /// The slot of the key, or the number of the refusal.
    fn insert(&mut self, key: u64, value: u64) -> Result<u64, u64> {
        let (mut answer, count) = (Answer::default(), S as u64);
        let (marks, keys, values) = (self.marks.as_mut_ptr(), self.keys.as_mut_ptr(), self.values.as_mut_ptr());
        // The arrays are this table's own, of S elements each, and do not overlap.
        unsafe { moss_int_map_insert(&mut answer, marks, count, keys, count, values, count, key, value) };
        if answer.refusal == 0 { Ok(answer.slot) } else { Err(answer.refusal) }
    }

    /// The value of the key, if it is there, or the number of the refusal.
    fn get(&self, key: u64) -> Result<Option<u64>, u64> {
        let (mut answer, count) = (Answer::default(), S as u64);
        let (marks, keys, values) = (self.marks.as_ptr(), self.keys.as_ptr(), self.values.as_ptr());
        unsafe { moss_int_map_get(&mut answer, marks, count, keys, count, values, count, key) };
        match answer.refusal {
            0 => Ok((answer.which == FOUND).then_some(answer.value)),
            refusal => Err(refusal),
        }
    }
}

fn main() {
    let mut table = IntMap::<4>::new();
    for key in [0, 4, 8, 12, 16] {
        println!("insert {key}: {:?}", table.insert(key, key + 10));
    }
    for key in [4, 5] {
        println!("get {key}: {:?}", table.get(key));
    }
    let empty = IntMap::<0>::new();
    println!("no slots: {:?}", empty.get(0));
}
