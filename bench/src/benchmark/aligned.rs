//! Words that begin at the start of a page.

const PAGE_BYTES: usize = 4_096;

/// Both sides have their memories so: the C library's `memset` of the undo buffer takes twice as long on one that crosses a page and
/// is not aligned to 32 bytes, and where an allocator puts a memory would decide which side has it so.
pub struct Aligned {
    room: Vec<u64>,
    first: usize,
}

impl Aligned {
    pub fn new(words: &[u64]) -> Self {
        let mut room: Vec<u64> = Vec::with_capacity(words.len() + PAGE_BYTES / size_of::<u64>());
        let first = room.as_ptr().align_offset(PAGE_BYTES);
        room.resize(first, 0);
        room.extend_from_slice(words);
        let aligned = Aligned { room, first };
        assert_eq!(aligned.words().as_ptr().align_offset(PAGE_BYTES), 0);
        aligned
    }

    #[inline(always)]
    pub fn words(&self) -> &[u64] {
        &self.room[self.first..]
    }

    #[inline(always)]
    pub fn words_mut(&mut self) -> &mut [u64] {
        &mut self.room[self.first..]
    }
}

#[cfg(test)]
mod tests {
    use super::*;

    #[test]
    fn it_has_the_words_and_begins_a_page() {
        for count in [1, 136, 640, 196_610] {
            let words: Vec<u64> = (0..count).collect();
            let mut aligned = Aligned::new(&words);
            assert_eq!(aligned.words(), words);
            assert_eq!(aligned.words_mut().as_ptr().align_offset(PAGE_BYTES), 0);
        }
    }
}
