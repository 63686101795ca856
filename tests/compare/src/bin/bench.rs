//! The benchmark: how many cards per second the proved library selects from, by rows and by the filter's text, beside
//! the rival and the sharper rival, and beside a lower bound that does nothing but sum the first 508 bytes of each
//! card; and how many a second it takes one by one, by `judge`, by `match` and by select.
//!
//! `bench [CARDS [ROUNDS [ROWS]]]` prints a table in Markdown, or those of its rows that begin with ROWS, such as
//! `full | 32`. The archives are made of a fixed seed. They are measured slice by slice, all taking turns on each,
//! and for each slice the median time of the rounds counts, so that what else the machine does disturbs little.
//!
//! `bench CARDS ROUNDS ROWS ALONE` runs one implementation alone, `sirophan`, `rival`, `sharper` or `sum`, on the rows
//! of the first table, so that a profiler can count its instructions.

use second::block::{self, BUNDLE, Entry, MARKED_CARD, MARKED_SHEET, SIZE, SUMMED};
use second::generate::Random;
use second::operations;
use sirophan::Engine;
use std::hint::black_box;
use std::iter;
use std::process::ExitCode;
use std::time::Instant;

const CARDS: usize = 100_000;
const ROUNDS: usize = 5;
/// How many cards are selected from at a time.
const RUN: usize = 128;
/// How many bytes are measured at a time.
const SLICE: usize = 8 * RUN * SIZE;

/// The filters, by the number and kind of their tests.
fn filters() -> Vec<(&'static str, String)> {
    vec![
        ("1, presence", "subject pr true".into()),
        ("1, number", "pages ge 100".into()),
        ("1, date", "birthdate le 1974-06".into()),
        ("1, token", "code eq loinc|1234-5".into()),
        ("1, string", "title co \"book 4\"".into()),
        ("4, mixed", mixed(4)),
        ("12, mixed", mixed(12)),
        ("32, mixed", mixed(32)),
        ("12, reversed", reversed(12)),
        ("32, reversed", reversed(32)),
    ]
}

/// So many tests of four kinds, in brackets of four.
fn mixed(count: usize) -> String {
    bracketed(&tests(count).collect::<Vec<String>>())
}

/// The same tests and brackets the other way round, so that others are left out.
fn reversed(count: usize) -> String {
    bracketed(&tests(count).rev().collect::<Vec<String>>())
}

fn tests(count: usize) -> impl DoubleEndedIterator<Item = String> {
    (0..count).map(|index| match index % 4 {
        0 => format!("title co \"book {index}\""),
        1 => format!("birthdate le {}-06", 1930 + index),
        2 => format!("code eq loinc|{}-5", 1230 + index),
        _ => format!("pages ge {}", 10 * index),
    })
}

fn bracketed(tests: &[String]) -> String {
    let brackets: Vec<String> = tests.chunks(4).map(|four| format!("({})", four.join(" or "))).collect();
    brackets.join(" and ")
}

fn sheet() -> Vec<u8> {
    let parameters: [(u8, &[u8]); 5] = [(1, b"title"), (3, b"birthdate"), (4, b"code"), (2, b"pages"), (5, b"subject")];
    block::write_sheet(&parameters).expect("five names have room")
}

/// One entry of a card, of one of the five parameters.
fn entry(random: &mut Random) -> (u8, String) {
    let place = random.below(5) as u8;
    let year = random.between(1900, 1999);
    let (month, day) = (random.between(1, 12), random.between(1, 28));
    let text = match place {
        0 => format!("Ward book {}, volume {}", random.below(500), random.below(9)),
        1 => match random.below(3) {
            0 => format!("{year}"),
            1 => format!("{year}-{month:02}-{day:02}"),
            _ => format!("{year}-{month:02}-{day:02}T{:02}:30:00+01:00", random.below(24)),
        },
        2 => format!("http://loinc.org|{}-{}", 1230 + random.below(9), random.below(10)),
        3 => format!("{}.{}", random.below(300), random.below(10)),
        _ => format!("Patient/{}", random.below(100_000)),
    };
    (place, text)
}

/// Cards with up to this many entries, or as many as have room.
fn archive(cards: usize, most_entries: usize) -> Vec<u8> {
    let mut random = Random::new(1974, most_entries as u64);
    let mut archive = Vec::with_capacity(cards * SIZE);
    for record in 0..cards as u32 {
        let mut entries = Vec::new();
        let mut room = SUMMED - 6;
        while entries.len() < most_entries {
            let (place, text) = entry(&mut random);
            if room < 2 + text.len() {
                break;
            }
            room -= 2 + text.len();
            entries.push((place, text));
        }
        let entries: Vec<_> = entries.iter().map(|(place, text)| (*place, text.as_bytes())).collect();
        archive.extend(block::write_card(record, &entries).expect("the entries have room"));
    }
    archive
}

/// The filters over bundles.
fn bundled_filters() -> Vec<(&'static str, String)> {
    vec![("1, condition", "related[type eq has-component].target re Observation/4".into())]
}

/// A sheet with a bundle of two members, and a title.
fn bundled_sheet() -> Vec<u8> {
    let parameters: [(u8, u8, &[u8]); 4] =
        [(BUNDLE, 0, b"related"), (4, 1, b"type"), (5, 1, b"target"), (1, 0, b"title")];
    let entries = parameters.map(|(head, mark, text)| Entry { head, mark, text });
    block::write_sheet_as(MARKED_SHEET, &entries).expect("four names have room")
}

/// Cards with a title and up to four relations, each an occurrence of its own.
fn bundled_archive(cards: usize) -> Vec<u8> {
    let mut random = Random::new(1974, 0);
    let mut archive = Vec::with_capacity(cards * SIZE);
    for record in 0..cards as u32 {
        let mut texts = vec![(3, 0, format!("Ward book {}", random.below(500)))];
        for occurrence in 0..random.between(1, 4) as u8 {
            let types = ["has-component", "derived-from", "sequel-to", "replaces"];
            texts.push((1, occurrence, random.one(&types).to_string()));
            texts.push((2, occurrence, format!("Observation/{}", random.below(9))));
        }
        let entries: Vec<_> =
            texts.iter().map(|(head, mark, text)| Entry { head: *head, mark: *mark, text: text.as_bytes() }).collect();
        archive.extend(block::write_card_as(MARKED_CARD, record, &entries).expect("the entries have room"));
    }
    archive
}

/// The filters over periods.
fn stay_filters() -> Vec<(&'static str, String)> {
    vec![("1, period", "stay po 1974-06".into())]
}

/// A sheet with a period and a title.
fn stay_sheet() -> Vec<u8> {
    block::write_sheet(&[(6, b"stay"), (1, b"title")]).expect("two names have room")
}

/// Cards with a title and up to three stays, of which one in three is open at an end.
fn stay_archive(cards: usize) -> Vec<u8> {
    let mut random = Random::new(1974, 1);
    let mut archive = Vec::with_capacity(cards * SIZE);
    for record in 0..cards as u32 {
        let mut texts = vec![(1, format!("Ward book {}", random.below(500)))];
        for _ in 0..random.between(1, 3) {
            let (year, month, day) = (random.between(1900, 1990), random.between(1, 12), random.between(1, 28));
            let stay = match random.below(6) {
                0 => format!("{year}-{month:02}-{day:02}/"),
                1 => format!("/{year}-{month:02}-{day:02}"),
                _ => format!("{year}-{month:02}-{day:02}/{}-{month:02}", year + random.between(0, 5)),
            };
            texts.push((0, stay));
        }
        let entries: Vec<_> = texts.iter().map(|(place, text)| (*place, text.as_bytes())).collect();
        archive.extend(block::write_card(record, &entries).expect("the entries have room"));
    }
    archive
}

/// How many cards match; the operation is asked run by run.
fn matching(cards: &[u8], select: impl Fn(&[u8], &mut [u32]) -> usize) -> usize {
    let mut list = [0; RUN];
    cards.chunks(RUN * SIZE).map(|run| select(black_box(run), &mut list)).sum()
}

/// The sum of the cards' check sums, by columns as the rival and the proved library take it.
fn summed(cards: &[u8]) -> usize {
    cards
        .chunks(SIZE)
        .map(|card| rival::block::check_sum(black_box(card).try_into().expect("whole cards")) as usize)
        .sum()
}

/// Work on cards, which answers a number.
type Work<'a> = dyn Fn(&[u8]) -> usize + 'a;

/// Work with the times that each slice of the archive took so far.
struct Measured<'a> {
    work: Box<Work<'a>>,
    times: Vec<Vec<f64>>,
}

impl<'a> Measured<'a> {
    fn new(archive: &[u8], work: impl Fn(&[u8]) -> usize + 'a) -> Measured<'a> {
        Measured { work: Box::new(work), times: vec![Vec::new(); archive.len().div_ceil(SLICE)] }
    }

    /// Does the work on one slice and answers what it answers.
    fn measure(&mut self, index: usize, slice: &[u8]) -> usize {
        let began = Instant::now();
        let answer = black_box((self.work)(slice));
        self.times[index].push(began.elapsed().as_secs_f64());
        answer
    }

    /// The sum of the slices' median times.
    fn seconds(&self) -> f64 {
        self.times.iter().map(|times| median(times)).sum()
    }
}

fn median(times: &[f64]) -> f64 {
    let mut times = times.to_vec();
    times.sort_by(f64::total_cmp);
    times[times.len() / 2]
}

/// Cards of one kind with their sheet, and the filters that are asked of them.
struct Asked {
    kind: &'static str,
    sheet: Vec<u8>,
    archive: Vec<u8>,
    filters: Vec<(&'static str, String)>,
}

/// Takes turns at the works on each slice, for so many rounds, and tells what each answered and the seconds it took.
fn taking_turns<const WORKS: usize>(
    archive: &[u8],
    rounds: usize,
    mut measured: [Measured; WORKS],
) -> [(usize, f64); WORKS] {
    let mut answers = [0; WORKS];
    for round in 0..rounds {
        answers = [0; WORKS];
        for (index, slice) in archive.chunks(SLICE).enumerate() {
            for turn in 0..WORKS {
                let which = (turn + round) % WORKS;
                answers[which] += measured[which].measure(index, slice);
            }
        }
    }
    let mut told = measured.iter().map(Measured::seconds).zip(answers);
    std::array::from_fn(|_| told.next().map(|(seconds, answer)| (answer, seconds)).expect("one for each"))
}

/// Millions of cards per second.
fn speed(archive: &[u8], seconds: f64) -> f64 {
    (archive.len() / SIZE) as f64 / seconds / 1e6
}

/// Work on cards under a sheet and a filter, which answers a number.
type Asking = fn(&[u8], &[u8], &[u8]) -> usize;

/// The implementations that can be run alone, by their names.
const ALONE: [(&str, Asking); 4] = [
    ("sirophan", |sheet, filter, cards| {
        matching(cards, |run, list| sirophan::select(sheet, filter, run, list).expect("a good filter"))
    }),
    ("rival", |sheet, filter, cards| {
        matching(cards, |run, list| rival::select(sheet, filter, run, list).expect("a good filter"))
    }),
    ("sharper", |sheet, filter, cards| {
        matching(cards, |run, list| rival::select_sharper(sheet, filter, run, list).expect("a good filter"))
    }),
    ("sum", |_, _, cards| summed(cards)),
];

/// The rows of one archive that begin with the text, each with its filter.
fn rows_of<'a>(asked: &'a Asked, rows: &'a str) -> impl Iterator<Item = (String, &'a [u8])> {
    let named = asked.filters.iter().map(|(name, filter)| (format!("{} | {name}", asked.kind), filter.as_bytes()));
    named.filter(move |(row, _)| row.starts_with(rows))
}

/// Runs one implementation alone on the rows of one archive that begin with the text.
fn run_alone(asked: &Asked, rows: &str, work: Asking) {
    for (row, filter) in rows_of(asked, rows) {
        println!("{row}: {}", work(&asked.sheet, filter, &asked.archive));
    }
}

/// Prints the rows of one archive that begin with the text.
fn measure(asked: &Asked, rounds: usize, rows: &str) {
    let Asked { sheet, archive, .. } = asked;
    for (row, filter) in rows_of(asked, rows) {
        let alone = ALONE.map(|(_, work)| Measured::new(archive, move |cards| work(sheet, filter, cards)));
        let by_text = Measured::new(archive, move |cards| {
            matching(cards, |run, list| {
                sirophan::select_by(Engine::Text, sheet, filter, run, list).expect("a good filter")
            })
        });
        let [proved, rival, sharper, sum] = alone;
        let works = [proved, by_text, rival, sharper, sum];
        let [(found, proved), (by_text, text), (by_rival, rival), (by_sharper, sharper), (sums, sum)] =
            taking_turns(archive, rounds, works);
        assert_eq!([found; 3], [by_text, by_rival, by_sharper], "all select the same number of cards");
        assert_eq!(sums, archive.chunks(SIZE).map(|card| block::check_sum(&card[..SUMMED]) as usize).sum());
        print!("| {row} | {found} |");
        for seconds in [proved, text, rival, sharper, sum] {
            print!(" {:.2} |", speed(archive, seconds));
        }
        println!(" {:.2} | {:.2} | {:.2} |", rival / proved, sharper / proved, sum / proved);
    }
}

/// Prints the rows of one archive, one card at a time, that begin with the text: judge on rows that were prepared
/// before, match, and select from a run of one card.
fn measure_single(Asked { kind, sheet, archive, filters }: &Asked, rounds: usize, rows: &str) {
    for (name, filter) in filters {
        let row = format!("{kind}, one by one | {name}");
        if !row.starts_with(rows) {
            continue;
        }
        let filter = filter.as_bytes();
        let prepared = sirophan::prepare(sheet, filter).expect("a good filter");
        let works = [
            Measured::new(archive, |cards| singly(cards, |card| prepared.matches(card).expect("a good card"))),
            Measured::new(archive, move |cards| {
                singly(cards, |card| sirophan::matches(sheet, filter, card).expect("a good card"))
            }),
            Measured::new(archive, move |cards| {
                singly(cards, |card| sirophan::select(sheet, filter, card, &mut [0]).expect("a good card") == 1)
            }),
        ];
        let [(found, judged), (matched, matching), (selected, selecting)] = taking_turns(archive, rounds, works);
        assert_eq!([found, found], [matched, selected], "all say yes of the same number of cards");
        println!(
            "| {row} | {:.2} | {:.2} | {:.2} | {:.2} | {:.2} |",
            speed(archive, judged),
            speed(archive, matching),
            speed(archive, selecting),
            matching / judged,
            selecting / judged,
        );
    }
}

/// The search strings, by the number of their alternatives.
fn strings() -> Vec<(&'static str, String)> {
    vec![("4, search string", "title=ward+book+4,ward+book+3&birthdate=le1974-06&pages=ge100".into())]
}

/// Prints the rows of one archive, asked by search strings, that begin with the text.
fn measure_search(asked: &Asked, rounds: usize, rows: &str) {
    let Asked { sheet, archive, .. } = asked;
    for (row, text) in rows_of(asked, rows) {
        let works = [
            Measured::new(archive, move |cards| {
                matching(cards, |run, list| sirophan::select_search(sheet, text, run, list).expect("a good string"))
            }),
            Measured::new(archive, move |cards| {
                matching(cards, |run, list| operations::select_search(sheet, text, run, list).expect("a good string"))
            }),
        ];
        let [(found, proved), (plain_found, plain)] = taking_turns(archive, rounds, works);
        assert_eq!(found, plain_found, "both select the same number of cards");
        println!(
            "| {row} | {found} | {:.2} | {:.2} | {:.2} |",
            speed(archive, proved),
            speed(archive, plain),
            plain / proved,
        );
    }
}

/// How many cards say yes, asked one by one.
fn singly(cards: &[u8], says: impl Fn(&[u8]) -> bool) -> usize {
    cards.chunks(SIZE).filter(|card| says(black_box(card))).count()
}

/// The archives that filters are asked of by select, made one at a time.
fn archives(cards: usize) -> impl Iterator<Item = Asked> {
    let plain = [("sparse", 1), ("usual", 6), ("full", 64)].into_iter().map(move |(kind, most_entries)| Asked {
        kind,
        sheet: sheet(),
        archive: archive(cards, most_entries),
        filters: filters(),
    });
    let bundled = move || Asked {
        kind: "bundled",
        sheet: bundled_sheet(),
        archive: bundled_archive(cards),
        filters: bundled_filters(),
    };
    let stays =
        move || Asked { kind: "stays", sheet: stay_sheet(), archive: stay_archive(cards), filters: stay_filters() };
    plain.chain(iter::once_with(bundled)).chain(iter::once_with(stays))
}

/// Prints the tables of everything that is measured by the clock.
fn print_tables(cards: usize, rounds: usize, rows: &str) {
    println!("{cards} cards in runs of {RUN}; millions of cards per second, the median of {rounds} rounds.\n");
    print!("| cards | tests | match | Sirophan | by text | rival | sharper rival | sum only ");
    println!("| to rival | to sharper rival | to sum only |");
    println!("|---|---|---:|---:|---:|---:|---:|---:|---:|---:|---:|");
    for asked in archives(cards) {
        measure(&asked, rounds, rows);
    }
    println!("\nBy a search string.\n");
    println!("| cards | alternatives | match | Sirophan | second implementation | to second implementation |");
    println!("|---|---|---:|---:|---:|---:|");
    let asked = Asked { kind: "usual", sheet: sheet(), archive: archive(cards, 6), filters: strings() };
    measure_search(&asked, rounds, rows);
    println!("\nOne card at a time.\n");
    println!("| cards | tests | judge | match | select | judge to match | judge to select |");
    println!("|---|---|---:|---:|---:|---:|---:|");
    let few = cards.div_ceil(10);
    for (kind, most_entries) in [("sparse", 1), ("usual", 6), ("full", 64)] {
        let filters = filters().into_iter().filter(|(name, _)| ["1, number", "32, mixed"].contains(name)).collect();
        let asked = Asked { kind, sheet: sheet(), archive: archive(few, most_entries), filters };
        measure_single(&asked, rounds, rows);
    }
}

fn main() -> ExitCode {
    let arguments: Vec<String> = std::env::args().skip(1).collect();
    let number = |index: usize, otherwise| arguments.get(index).map_or(Ok(otherwise), |text| text.parse());
    let rows = arguments.get(2).map_or("", |text| text);
    let alone = arguments.get(3).map(|wanted| ALONE.iter().find(|(name, _)| name == wanted));
    match (number(0, CARDS), number(1, ROUNDS), alone) {
        (Ok(cards), Ok(rounds), None) => print_tables(cards, rounds, rows),
        (Ok(cards), Ok(rounds), Some(Some((_, work)))) => {
            let run = |_| archives(cards).for_each(|asked| run_alone(&asked, rows, *work));
            (0..rounds).for_each(run);
        }
        _ => {
            eprintln!("usage: bench [CARDS [ROUNDS [ROWS [sirophan|rival|sharper|sum]]]]");
            return ExitCode::FAILURE;
        }
    }
    ExitCode::SUCCESS
}
