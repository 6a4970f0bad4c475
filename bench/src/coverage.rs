//! What a set of logs reached, as counts, as a table, and as what is missing.

use crate::choice::Choice;
use crate::events::{Event, Record};
use crate::generate::Generator;
use crate::header::{parse_header, Fault};
use crate::heads::Head;
use crate::log::{judge_observed, Outcome, LOG_LIMIT, RECORD_LENGTH};
use crate::number::{READ_MEMORY, READ_NOTHING, STOP_FEW_LEFT, VERDICT_MALFORMED, VERDICT_SOUND};
use crate::place::{CollectorPlace, MutatorPlace};
use crate::state::{bit, State, BUFFER_ROOM};
use crate::version::Version;
use std::collections::BTreeMap;
use std::fmt::{Debug, Write};

/// The stops that a log can reach. Stop 1 and stop 11 are not among them: a
/// state reached from an opening is well formed and holds no loose cell.
pub(crate) const STOPS: [u8; 13] = [0, 2, 3, 4, 5, 6, 7, 8, 9, 10, 12, 13, 14];
/// Where the last value read may have come from: memory, each place of the own
/// buffer, nowhere.
pub(crate) const READS: [u8; BUFFER_ROOM + 2] = [READ_MEMORY, 1, 2, 3, 4, 5, 6, 7, 8, READ_NOTHING];
/// The longest header that is cut after its every byte: 7 + 3 * 2 + 4 bytes in
/// version 1, 7 + 3 * 2 + 8 in version 2.
const CUT_HEADER: usize = 21;

/// Counts by name.
type Counts<K> = BTreeMap<K, u64>;

/// What was reached, and how often.
#[derive(Clone, Debug, Default)]
pub struct Coverage {
    pub logs: u64,
    pub steps: u64,
    stops: Counts<u8>,
    verdicts: Counts<u8>,
    /// Where each log's last read saw its value.
    reads: Counts<u8>,
    /// Places at which an own step was taken.
    mutator_places: Counts<MutatorPlace>,
    collector_places: Counts<CollectorPlace>,
    faults: Counts<Fault>,
    /// The same, of logs of version 2 alone.
    faults_of_2: Counts<Fault>,
    heads: Counts<Head>,
    events: Counts<Event>,
    sizes: Counts<usize>,
    /// Bytes of a header that is cut, and of a last record that is cut.
    cut_headers: Counts<usize>,
    cut_records: Counts<usize>,
    /// Logs that gave stop 1 or 11, or a verdict that is none of 0 and 4.
    pub alarms: Vec<Vec<u8>>,
}

/// What one log has done so far.
#[derive(Default)]
struct History {
    freed: u64,
    collections: u32,
}

impl Coverage {
    pub fn new() -> Coverage {
        Coverage::default()
    }

    /// That of so many generated logs of each version.
    pub fn of_generated(seed: u64, logs: u64) -> Coverage {
        let mut coverage = Coverage::new();
        for mut generator in [Generator::new(seed), Generator::of_version_2(seed)] {
            for _ in 0..logs {
                coverage.add(&generator.next_log());
            }
        }
        coverage
    }

    /// Runs a log and counts what it reaches.
    pub fn add(&mut self, log: &[u8]) -> Outcome {
        let mut history = History::default();
        let (outcome, end) = judge_observed(log, |before, choice, number, after| {
            let record = Record {
                before,
                choice,
                number,
                after,
            };
            self.record(record, &mut history);
        });
        self.logs += 1;
        self.steps += u64::from(outcome.steps);
        count(&mut self.stops, outcome.stop);
        count(&mut self.verdicts, outcome.verdict);
        count(&mut self.reads, outcome.read);
        count(&mut self.sizes, log.len());
        match end {
            Err(fault) => self.fault(fault, log),
            Ok(_) if outcome.stop == STOP_FEW_LEFT => self.cut(log),
            Ok(_) => {}
        }
        if log.len() <= LOG_LIMIT {
            for head in Head::of(log) {
                count(&mut self.heads, head);
            }
        }
        self.watch(log, outcome);
        outcome
    }

    /// How often the event was seen.
    pub fn times(&self, event: Event) -> u64 {
        times(&self.events, &event)
    }

    fn record(&mut self, record: Record, history: &mut History) {
        let Choice {
            process, kind, x, ..
        } = record.choice;
        for event in record.events() {
            count(&mut self.events, event);
            let again = history.note(event, record.before, x);
            if let Some(event) = again {
                count(&mut self.events, event);
            }
        }
        if record.number == 0 && kind == 0 {
            match process {
                0 => count(&mut self.collector_places, record.before.collector.place),
                p => count(&mut self.mutator_places, record.before.mutator(p).place),
            }
        }
    }

    fn fault(&mut self, fault: Fault, log: &[u8]) {
        count(&mut self.faults, fault);
        if log.get(3..5) == Some(&Version::Two.number().to_le_bytes()) {
            count(&mut self.faults_of_2, fault);
        }
        if fault == Fault::Short {
            count(&mut self.cut_headers, log.len());
        }
    }

    fn cut(&mut self, log: &[u8]) {
        if let Ok((_, records)) = parse_header(log) {
            count(&mut self.cut_records, records.len() % RECORD_LENGTH);
        }
    }

    /// Keeps a log that contradicts the published theorem.
    fn watch(&mut self, log: &[u8], outcome: Outcome) {
        let known = STOPS.contains(&outcome.stop);
        let sound = matches!(outcome.verdict, VERDICT_SOUND | VERDICT_MALFORMED);
        if !known || !sound {
            self.alarms.push(log.to_vec());
        }
    }
}

impl History {
    /// Notes what the log has done and gives the event this makes, if any.
    fn note(&mut self, event: Event, before: &State, x: u8) -> Option<Event> {
        match event {
            Event::CellFreed => {
                self.freed |= bit(before.collector.doomed);
                None
            }
            Event::AllocatedBlack | Event::AllocatedWhite => {
                (self.freed & bit(x) != 0).then_some(Event::AllocatedAgain)
            }
            Event::Collected => {
                self.collections += 1;
                match self.collections {
                    2 => Some(Event::CollectedTwice),
                    5 => Some(Event::CollectedFive),
                    _ => None,
                }
            }
            _ => None,
        }
    }
}

fn count<K: Ord>(counts: &mut Counts<K>, key: K) {
    *counts.entry(key).or_default() += 1;
}

fn times<K: Ord>(counts: &Counts<K>, key: &K) -> u64 {
    counts.get(key).copied().unwrap_or(0)
}

/// A part of the table: its name, and each line's name and count.
type Section = (&'static str, Vec<(String, u64)>);

impl Coverage {
    /// What must be reached, with its counts.
    fn sections(&self) -> Vec<Section> {
        let sizes = LOG_LIMIT - 1..=LOG_LIMIT + 1;
        let event_line = |&event: &Event| (event.name().to_string(), self.times(event));
        let head_line = |head: &Head| (head.name().to_string(), times(&self.heads, head));
        let read_line = |read: &u8| (read_name(*read), times(&self.reads, read));
        let after_version = |fault: &Fault| *fault > Fault::VersionHighByte;
        vec![
            ("Stops", lines(STOPS, &self.stops)),
            ("Last read of a log", READS.iter().map(read_line).collect()),
            (
                "Mutator places (own steps taken)",
                lines(MutatorPlace::all(), &self.mutator_places),
            ),
            (
                "Collector places (own steps taken)",
                lines(CollectorPlace::all(), &self.collector_places),
            ),
            ("Header clauses broken", lines(Fault::ALL, &self.faults)),
            (
                "Header clauses broken in version 2",
                lines(
                    Fault::ALL.into_iter().filter(after_version),
                    &self.faults_of_2,
                ),
            ),
            ("Versions", Head::ALL.iter().map(head_line).collect()),
            (
                "Header cut after so many bytes",
                lines(0..CUT_HEADER, &self.cut_headers),
            ),
            (
                "Record cut after so many bytes",
                lines(1..RECORD_LENGTH, &self.cut_records),
            ),
            ("Log sizes in bytes", lines(sizes, &self.sizes)),
            ("Events", Event::ALL.iter().map(event_line).collect()),
        ]
    }

    /// What must be reached and was not.
    pub fn missing(&self) -> Vec<String> {
        let mut missing = Vec::new();
        for (section, lines) in self.sections() {
            let unreached = lines.into_iter().filter(|(_, times)| *times == 0);
            missing.extend(unreached.map(|(name, _)| format!("{section}: {name}")));
        }
        missing
    }

    /// The coverage table as Markdown.
    pub fn markdown(&self) -> String {
        let mut text = String::from("# Coverage of the generator\n\n");
        text.push_str("What the generated logs reach, as the program `coverage` prints it.\n");
        let (logs, steps) = (self.logs, self.steps);
        let _ = writeln!(text, "\n{logs} logs, {steps} records taken.");
        let verdicts = lines(self.verdicts.keys().copied(), &self.verdicts);
        let sections = self.sections();
        for (section, lines) in sections.into_iter().chain([("Verdicts", verdicts)]) {
            let _ = writeln!(text, "\n## {section}\n\n| what | times |\n|---|---:|");
            for (name, times) in lines {
                let _ = writeln!(text, "| {name} | {times} |");
            }
        }
        let _ = writeln!(text, "\nMissing: {}.", self.missing().len());
        let _ = writeln!(text, "Against the theorem: {}.", self.alarms.len());
        text
    }
}

/// A log's fourth number in words.
fn read_name(read: u8) -> String {
    match read {
        READ_MEMORY => "from memory".to_string(),
        READ_NOTHING => "nothing read".to_string(),
        own => format!("from its own buffer, place {}", own - 1),
    }
}

/// The count of each key, named by its debug form.
fn lines<K: Ord + Debug>(
    keys: impl IntoIterator<Item = K>,
    counts: &Counts<K>,
) -> Vec<(String, u64)> {
    let line = |key: K| (format!("{key:?}"), times(counts, &key));
    keys.into_iter().map(line).collect()
}
