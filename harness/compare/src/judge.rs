//! One input through both sides: the listing by the source, and what the C entry answers and leaves in outputs of several lengths.
use crate::counts::Counts;
use crate::output::Output;
use oracle::MAX_FILE;

/// Input and output to the length of the listing or a negated refusal, as the C entry.
pub type Entry<'a> = &'a dyn Fn(&[u8], &mut [u8]) -> i64;

pub struct Judge<'a> {
    entry: Entry<'a>,
    output: Output,
    pub counts: Counts,
    pub inputs: u64,
    pub different: u64,
    /// The shortest input that was answered differently.
    pub shortest: Option<Vec<u8>>,
}

impl<'a> Judge<'a> {
    pub fn new(entry: Entry<'a>) -> Self {
        Judge { entry, output: Output::new(), counts: Counts::default(), inputs: 0, different: 0, shortest: None }
    }

    pub fn input(&mut self, file: &[u8]) {
        let listing = oracle::listing(file);
        self.inputs += 1;
        self.counts.add(&listing);
        if self.wrong_room(file, listing.as_bytes()).is_some() {
            self.different += 1;
            if self.shortest.as_ref().is_none_or(|s| file.len() < s.len()) {
                self.shortest = Some(file.to_vec());
            }
        }
    }

    /// The room with which an input is answered differently.
    pub fn differs(&mut self, file: &[u8]) -> Option<usize> {
        self.wrong_room(file, oracle::listing(file).as_bytes())
    }

    /// Of room to spare, just enough, one too little, and some place below: the first with a wrong answer.
    fn wrong_room(&mut self, file: &[u8], listing: &[u8]) -> Option<usize> {
        let length = listing.len();
        [length + 40, length, length - 1, file.len() * 7919 % length]
            .into_iter()
            .find(|room| !self.is_right(file, listing, *room))
    }

    /// The answer and every byte of an output with so much room, as document 01 has them.
    fn is_right(&mut self, file: &[u8], listing: &[u8], room: usize) -> bool {
        let answer = (self.entry)(file, self.output.lend(room));
        if file.len() > MAX_FILE {
            return answer == -26 && self.output.is_zeroed();
        }
        if listing.len() > room {
            return answer == -27 && self.output.is_zeroed();
        }
        answer == listing.len() as i64
            && self.output.given_back().starts_with(listing)
            && self.output.is_untouched_from(listing.len())
    }

    /// What the entry answers and leaves in an output with so much room, for showing.
    pub fn answer(&self, file: &[u8], room: usize) -> (i64, String) {
        let mut output = vec![b'?'; room];
        let answer = (self.entry)(file, &mut output);
        (answer, output.escape_ascii().to_string().replace("\\n", "\n"))
    }
}
