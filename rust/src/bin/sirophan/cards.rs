//! Goes through a file of cards with all processors, in pieces, and takes what each piece gives in the file's order.

use crate::advice::{self, Words};
use crate::block::{self, SIZE, Sort};
use crate::input::{self, Input};
use crate::kind;
use crate::progress::Progress;
use crate::report::{Failure, Message};
use crate::sheet::Sheet;
use crate::text::{self, counted, grouped};
pub use sirophan::RUN;
use sirophan::Refusal;
use std::collections::BTreeMap;
use std::num::NonZero;
use std::sync::{Mutex, MutexGuard, PoisonError};
use std::thread;

/// How many bytes a piece has, a whole number of runs.
const PIECE: usize = 2 * RUN * SIZE;

/// Goes through a file. `work` makes something of each piece, given the index of its first card; what it adds up is kept
/// by each processor for itself. `take` gets what was made, in the order of the file; where it fails, the pass ends. An
/// empty file is one piece. The answer is what was added up.
pub fn pass<T, R>(
    input: Input,
    work: impl Fn(&mut T, u64, &[u8]) -> R + Sync,
    take: impl FnMut(R) -> Result<(), Failure> + Send,
) -> Result<Vec<T>, Failure>
where
    T: Default + Send,
    R: Send,
{
    let processors = thread::available_parallelism().map_or(1, NonZero::get);
    let pieces = input.size.map_or(usize::MAX, |size| usize::try_from(size / PIECE as u64 + 1).unwrap_or(usize::MAX));
    let source = Mutex::new(Source::new(input));
    let sink = Mutex::new(Sink { next: 0, waiting: BTreeMap::new(), take, outcome: Ok(()) });
    let worker = || {
        let mut sum = T::default();
        let mut piece = vec![0; PIECE];
        // The lock is taken in a closure, so that it is not held while the piece is worked on.
        let next = |piece: &mut [u8]| lock(&source).next(piece);
        while let Some((number, filled)) = next(&mut piece) {
            let made = filled.map(|filled| work(&mut sum, number * (PIECE / SIZE) as u64, &piece[..filled]));
            if !lock(&sink).put(number, made) {
                lock(&source).ended = true;
            }
        }
        sum
    };
    let sums = thread::scope(|scope| {
        let workers: Vec<_> = (0..processors.min(pieces)).map(|_| scope.spawn(worker)).collect();
        workers.into_iter().map(|worker| worker.join().expect("no work panics")).collect()
    });
    sink.into_inner().unwrap_or_else(PoisonError::into_inner).outcome.map(|()| sums)
}

/// What a lock guards; a panic elsewhere ends the program anyway.
fn lock<T>(mutex: &Mutex<T>) -> MutexGuard<'_, T> {
    mutex.lock().unwrap_or_else(PoisonError::into_inner)
}

/// The file, as it is read piece by piece.
struct Source {
    input: Input,
    next: u64,
    ended: bool,
    progress: Option<Progress>,
}

impl Source {
    fn new(input: Input) -> Source {
        let progress = input.shows_progress.then(Progress::new);
        Source { input, next: 0, ended: false, progress }
    }

    /// Reads the next piece, and answers its number and how far it goes; the last one is not full.
    fn next(&mut self, piece: &mut [u8]) -> Option<(u64, Result<usize, Failure>)> {
        if self.ended {
            return None;
        }
        let filled = self.input.fill(piece);
        let number = self.next;
        self.next += 1;
        self.ended = !matches!(filled, Ok(PIECE));
        self.show_progress();
        // Behind whole pieces there may be nothing; an empty file is still a piece.
        (number == 0 || !matches!(filled, Ok(0))).then_some((number, filled))
    }

    /// Shows how many cards are read.
    fn show_progress(&mut self) {
        if let Some(progress) = &mut self.progress {
            progress.show(|| part_read(self.next * PIECE as u64, self.input.size));
        }
    }
}

/// How many cards are read of how many, by the bytes that are.
pub fn part_read(read: u64, size: Option<u64>) -> String {
    let cards = |bytes: u64| grouped(bytes / SIZE as u64);
    match size {
        Some(size) => format!("{} of {} cards", cards(read.min(size)), cards(size)),
        None => format!("{} cards", cards(read)),
    }
}

/// What was made of the pieces, as it comes in.
struct Sink<R, F> {
    next: u64,
    waiting: BTreeMap<u64, Result<R, Failure>>,
    take: F,
    outcome: Result<(), Failure>,
}

impl<R, F: FnMut(R) -> Result<(), Failure>> Sink<R, F> {
    /// Keeps what was made of a piece, takes all whose turn has come, and answers whether to go on.
    fn put(&mut self, number: u64, made: Result<R, Failure>) -> bool {
        self.waiting.insert(number, made);
        while let Some(made) = self.waiting.remove(&self.next) {
            match made.and_then(&mut self.take) {
                Ok(()) => self.next += 1,
                failed => {
                    // No further piece has the number that is waited for.
                    self.next = u64::MAX;
                    self.outcome = failed;
                }
            }
        }
        self.outcome.is_ok()
    }
}

/// A card that is refused, or the bytes that are no whole card.
pub struct AtFault {
    pub refusal: Refusal,
    pub block: Vec<u8>,
    /// Whether the run that it was found in is a text, and has no cards.
    in_text: bool,
}

impl AtFault {
    /// What the library refused in a run that begins with this card; the place of 21 to 23 counts over the file.
    pub fn new(refusal: Refusal, first: u64, run: &[u8]) -> AtFault {
        let block = if refusal.is_of_card() {
            &run[refusal.place * SIZE..][..SIZE]
        } else {
            &run[run.len() - run.len() % SIZE..]
        };
        AtFault { refusal: refusal.over_file(first), block: block.to_vec(), in_text: text::is_text(run) }
    }

    /// The refusal as it is told, with the record and the field.
    pub fn tell(&self, name: &str, sheet: &Sheet) -> Message {
        let mut help: Vec<String> = match self.refusal.number {
            20 if self.in_text => vec![advice::TEXT_FOR_CARDS.into()],
            20 => vec![format!("Behind its last whole card it has {}.", counted(self.block.len() as u64, "byte"))],
            _ => located(self.refusal.place as u64, &self.block, sheet),
        };
        if self.refusal.number > 20 && Sort::of(&self.block) == Sort::Card && name != input::shown("-") {
            let record = block::record(&self.block);
            help.push(format!(
                "There is no answer until it is put right. `sirophan show --record {record} {name}` shows it."
            ));
        }
        advice::told(self.refusal, name, help)
    }
}

/// What is wrong with a card, each sentence with the card's index and, if the block is a card, its record number.
pub fn located(index: u64, card: &[u8], sheet: &Sheet) -> Vec<String> {
    let record = match Sort::of(card) {
        Sort::Card => format!(", record {}", block::record(card)),
        _ => String::new(),
    };
    let faults = advice::card_faults(sheet, card);
    faults.into_iter().map(|fault| format!("card {index}{record}: {fault}")).collect()
}

/// How the library is asked whether cards fit a sheet: by a text that has a meaning there, if any has.
pub struct Fit<'a> {
    pub sheet: &'a Sheet,
    pub asked: Option<(Words, Vec<u8>)>,
}

impl<'a> Fit<'a> {
    /// Of a sheet alone: by a filter of its own.
    pub fn new(sheet: &'a Sheet) -> Fit<'a> {
        Fit { sheet, asked: sheet.some_filter().map(|filter| (Words::Filter, filter.into_bytes())) }
    }

    /// Selects from a run. A sheet without parameters that have texts takes the cards that are sound and have no entries.
    pub fn select(&self, run: &[u8], list: &mut [u32; RUN]) -> Result<usize, Refusal> {
        match &self.asked {
            Some((words, text)) => words.select(&self.sheet.block, text, run, list),
            None if !run.len().is_multiple_of(SIZE) => Err(Refusal { number: 20, place: 0 }),
            None => {
                for (place, card) in run.chunks(SIZE).enumerate() {
                    kind::sound_card(card).map_err(|refusal| Refusal { place, ..refusal })?;
                    if block::count(card) > 0 {
                        return Err(Refusal { number: 23, place });
                    }
                }
                Ok(0)
            }
        }
    }

    /// Selects from a piece: the record numbers found in the runs before the first that is refused, and what is refused.
    pub fn select_piece(&self, first: u64, piece: &[u8]) -> (Vec<u32>, Option<AtFault>) {
        let mut found = Vec::new();
        let mut list = [0; RUN];
        for (index, run) in piece.chunks(RUN * SIZE).enumerate() {
            match self.select(run, &mut list) {
                Ok(count) => found.extend(&list[..count]),
                Err(refusal) => return (found, Some(AtFault::new(refusal, first + (index * RUN) as u64, run))),
            }
        }
        (found, None)
    }
}
