//! Provenance by the text alone. From the input lines and an explainer's own replies a plain book is kept of the
//! accepted writes to each block, safe, at risk or lost, and the sentences of every accepted read, of every restart and
//! of all that is said of embargoes are held to it. The book also has the line and the value of each copy, whether the
//! copy is dirty, how often each station has each file open, and since which line it is under embargo.

use std::collections::{BTreeMap, HashMap};
use std::fmt;

use super::shown;
use crate::images::Sections;

/// What has been checked so far, in all files.
#[derive(Default)]
pub struct Provenance {
    lines: u64,
    from_the_server: u64,
    from_a_copy: u64,
    from_a_dirty_copy: u64,
    unwritten: u64,
    /// Reads of blocks whose latest write was lost.
    after_a_loss: u64,
    restarts: u64,
    embargoes: u64,
    writes_lost: u64,
    /// Reads and writes under embargo.
    reads_without_promise: u64,
    writes_in_vain: u64,
    refused_under_embargo: u64,
}

/// A line that says what the text before it does not bear out.
#[derive(Clone, PartialEq, Eq, Debug)]
pub struct Unfounded {
    pub line: u64,
    pub said: String,
    /// What it should say.
    pub expected: String,
}

impl Provenance {
    pub fn reads(&self) -> u64 {
        self.from_the_server + self.from_a_copy
    }

    pub fn reads_after_a_loss(&self) -> u64 {
        self.after_a_loss
    }

    pub fn writes_lost(&self) -> u64 {
        self.writes_lost
    }

    /// The least of what embargoes bring about.
    pub fn least_of_embargoes(&self) -> u64 {
        let Provenance { embargoes, reads_without_promise, writes_in_vain, refused_under_embargo, .. } = self;
        *embargoes.min(reads_without_promise).min(writes_in_vain).min(refused_under_embargo)
    }

    /// Checks the explained lines of a whole file, of a run that begins with an image or not.
    pub fn check(&mut self, input: &[u8], output: &[u8], image: Option<&[u8]>) -> Result<(), Unfounded> {
        let mut book = TextBook::new(image);
        let mut said = output.split(|&byte| byte == b'\n');
        for step in input.split_inclusive(|&byte| byte == b'\n') {
            book.line += 1;
            let said = said.next().unwrap_or_default();
            let line = book.line;
            let judged = book.judge(step.strip_suffix(b"\n").unwrap_or(step), said, self);
            judged.map_err(|expected| Unfounded { line, said: shown(said), expected })?;
        }
        self.lines += book.line;
        Ok(())
    }
}

impl fmt::Display for Provenance {
    fn fmt(&self, out: &mut fmt::Formatter) -> fmt::Result {
        let Provenance { lines, from_the_server, from_a_copy, from_a_dirty_copy, unwritten, .. } = self;
        let Provenance { after_a_loss, restarts, embargoes, writes_lost, .. } = self;
        let Provenance { reads_without_promise, writes_in_vain, refused_under_embargo, .. } = self;
        writeln!(out, "lines {lines}")?;
        writeln!(out, "accepted reads {}", self.reads())?;
        writeln!(
            out,
            "from the server {from_the_server}, from a copy {from_a_copy}, {from_a_dirty_copy} of them dirty"
        )?;
        writeln!(
            out,
            "of blocks that no line wrote {unwritten}, of blocks whose latest write was lost {after_a_loss}"
        )?;
        writeln!(out, "restarts {restarts}, embargoes {embargoes}, blocks whose writes they lost {writes_lost}")?;
        writeln!(out, "under embargo: reads {reads_without_promise}, writes {writes_in_vain}")?;
        write!(out, "refused under embargo {refused_under_embargo}")
    }
}

/// A number, as it is written.
type Number<'a> = &'a [u8];
/// Station, file and block.
type Place<'a> = [Number<'a>; 3];

#[derive(Clone, Copy)]
struct Write<'a> {
    line: u64,
    station: Number<'a>,
    value: Number<'a>,
}

/// The accepted writes to a block: the latest at the server, and the later ones in a copy.
#[derive(Default)]
struct Writes<'a> {
    at_the_server: Option<Write<'a>>,
    in_a_copy: Vec<Write<'a>>,
    /// The latest of all, if it is lost.
    lost: Option<Write<'a>>,
}

impl<'a> Writes<'a> {
    fn add(&mut self, write: Write<'a>, in_a_copy: bool) {
        self.lost = None;
        if in_a_copy {
            self.in_a_copy.push(write);
        } else {
            *self = Writes { at_the_server: Some(write), ..Writes::default() };
        }
    }

    /// The station's writes have come to the server.
    fn sent(&mut self, by: Number) {
        let (sent, left): (Vec<_>, _) = self.in_a_copy.iter().partition(|write| write.station == by);
        self.in_a_copy = left;
        self.at_the_server = sent.last().copied().or(self.at_the_server);
    }

    /// The station's writes in its copy are lost. Gives the line of the latest.
    fn lose(&mut self, by: Number) -> Option<u64> {
        let (lost, left): (Vec<_>, _) = self.in_a_copy.iter().partition(|write| write.station == by);
        self.in_a_copy = left;
        let latest = lost.last().copied().into_iter().chain(self.lost);
        self.lost = latest.max_by_key(|write| write.line);
        lost.last().map(|write| write.line)
    }

    fn latest(&self) -> Option<&Write<'a>> {
        self.in_a_copy.last().or(self.at_the_server.as_ref())
    }
}

/// The latest line at which a copy came to its station, whether it was written there, and its value.
struct Copied<'a> {
    line: u64,
    written: bool,
    value: Number<'a>,
}

struct TextBook<'a> {
    line: u64,
    /// By file and block.
    writes: HashMap<[Number<'a>; 2], Writes<'a>>,
    /// How often a file is open, by station and file.
    opens: HashMap<[Number<'a>; 2], u64>,
    copies: HashMap<Place<'a>, Copied<'a>>,
    flushes: HashMap<Place<'a>, u64>,
    /// Callback replies, by station and file.
    answers: HashMap<[Number<'a>; 2], u64>,
    /// The stations under embargo, by their numbers: since which line, 0 since the image.
    embargoes: HashMap<u64, u64>,
    /// The blocks of the image that the run began with, those that are not 0.
    image: Option<HashMap<[Vec<u8>; 2], Vec<u8>>>,
}

impl<'a> TextBook<'a> {
    fn new(image: Option<&[u8]>) -> Self {
        let text = |number: u64| number.to_string().into_bytes();
        let blocks_of = |image: &[u8]| {
            let sections = Sections::of(image);
            let blocks = sections.blocks();
            blocks.map(|(file, block, value)| ([text(file.into()), text(block.into())], text(value))).collect()
        };
        let embargoed = image.map_or(Vec::new(), |image| Sections::of(image).embargoes().collect());
        TextBook {
            line: 0,
            writes: HashMap::new(),
            opens: HashMap::new(),
            copies: HashMap::new(),
            flushes: HashMap::new(),
            answers: HashMap::new(),
            embargoes: embargoed.into_iter().map(|station| (station.into(), 0)).collect(),
            image: image.map(blocks_of),
        }
    }

    /// Takes a line and what is said of it. An error is what should be said.
    fn judge(&mut self, step: &'a [u8], said: &'a [u8], counts: &mut Provenance) -> Result<(), String> {
        let number = self.line.to_string();
        let rest = said.strip_prefix(number.as_bytes()).and_then(|rest| rest.strip_prefix(b" "));
        let (reply, sentence) = rest.and_then(split_at_four_spaces).ok_or(format!("{number}, a reply, a sentence"))?;
        let (letter, fields) = reply.split_first().ok_or("a reply")?;
        let replied = fields_of(fields.strip_prefix(b" ").unwrap_or(fields));
        match (&fields_of(step)[..], letter) {
            (&[b"RD", station, file, block], b'V') if self.is_embargoed(station) => {
                let value = fields.strip_prefix(b" ").ok_or("a value")?;
                self.judge_read_under_embargo([station, file, block], value, sentence)?;
                counts.reads_without_promise += 1;
            }
            (&[b"RD", station, file, block], b'V') => {
                let value = fields.strip_prefix(b" ").ok_or("a value")?;
                self.judge_read([station, file, block], value, sentence, counts)?;
            }
            (_, b'V') => return Err("no value: the line is no read".into()),
            (&[b"WR", station, file, block, value], b'K') if self.is_embargoed(station) => {
                let [at, of, to] = [station, file, block].map(text);
                let due =
                    format!("station {at} writes file {of} block {to} in its copy; lost: it{}", self.since(station));
                holds(sentence == due.as_bytes(), due)?;
                let write = Write { line: self.line, station, value };
                self.writes.entry([file, block]).or_default().lost = Some(write);
                self.copies.insert([station, file, block], Copied { line: self.line, written: true, value });
                counts.writes_in_vain += 1;
            }
            (&[b"WR", station, file, block, value], b'K') => {
                let in_a_copy = sentence.ends_with(b" in its copy");
                let write = Write { line: self.line, station, value };
                self.writes.entry([file, block]).or_default().add(write, in_a_copy);
                if in_a_copy {
                    self.copies.insert([station, file, block], Copied { line: self.line, written: true, value });
                }
            }
            (&[b"FL", station, file, block], b'K') => {
                self.flushes.insert([station, file, block], self.line);
                self.writes.entry([file, block]).or_default().sent(station);
            }
            (&[b"AN", station, file], b'A') => {
                self.answers.insert([station, file], self.line);
                let of_file = self.writes.iter_mut().filter(|([of, _], _)| *of == file);
                of_file.for_each(|(_, writes)| writes.sent(station));
                if let [_, opener, ..] = replied[..] {
                    *self.opens.entry([opener, file]).or_default() += 1;
                }
            }
            (&[b"OR" | b"OW", station, file], b'G') => *self.opens.entry([station, file]).or_default() += 1,
            (&[b"CR" | b"CW", station, file], b'K') => {
                let opens = self.opens.entry([station, file]).or_default();
                *opens = opens.saturating_sub(1);
            }
            (&[b"BT", station], b'K') => {
                let opened = self.opened(station);
                self.opens.retain(|[by, _], _| *by != station);
                self.judge_forgotten(station, "restarts", &opened, &replied, sentence, counts)?;
                counts.restarts += 1;
                self.embargoes.remove(&number_of(station));
            }
            (&[b"EM", station, _], b'A') => {
                let opened = self.opened(station);
                let [b"0", granted @ ..] = &replied[..] else { return Err("A 0".into()) };
                self.judge_forgotten(station, "is put under embargo", &opened, granted, sentence, counts)?;
                counts.embargoes += 1;
                self.embargoes.insert(number_of(station), self.line);
            }
            (&[b"LF", station], b'K') => {
                let opened = list(&self.opened(station));
                let due = format!("station {} is told of its embargo; files it had open:{opened}", text(station));
                holds(sentence == due.as_bytes(), due)?;
                self.opens.retain(|[by, _], _| *by != station);
                self.embargoes.remove(&number_of(station));
            }
            (&[_, station, ..], b'N') if replied == [b"20"] => {
                let due = format!("station {}{}", text(station), self.since(station));
                holds(sentence == due.as_bytes() && self.is_embargoed(station), due)?;
                counts.refused_under_embargo += 1;
            }
            (&[_, station, ..], b'N') if replied == [b"21"] => {
                let due = format!("station {} is not under embargo", text(station));
                holds(sentence == due.as_bytes() && !self.is_embargoed(station), due)?;
            }
            _ => {}
        }
        Ok(())
    }

    fn is_embargoed(&self, station: Number) -> bool {
        self.embargoes.contains_key(&number_of(station))
    }

    /// That a station is under embargo, as it is told.
    fn since(&self, station: Number) -> String {
        match self.embargoes.get(&number_of(station)) {
            Some(0) | None => " is under embargo, as the image has it".into(),
            Some(line) => format!(" is under embargo since line {line}"),
        }
    }

    /// The files that a station has open.
    fn opened(&self, station: Number) -> Vec<u64> {
        let opened = self.opens.iter().filter(|([by, _], opens)| *by == station && **opens > 0);
        let mut opened: Vec<u64> = opened.map(|([_, file], _)| number_of(file)).collect();
        opened.sort_unstable();
        opened
    }

    /// Of a restart or an embargo: the files that were open and the writes that are lost must be told; then a grant for
    /// each four numbers.
    fn judge_forgotten(
        &mut self,
        station: Number<'a>,
        what: &str,
        opened: &[u64],
        granted: &[Number<'a>],
        sentence: &'a [u8],
        counts: &mut Provenance,
    ) -> Result<(), String> {
        let mut lost = BTreeMap::new();
        for ([file, block], writes) in &mut self.writes {
            if let Some(line) = writes.lose(station) {
                lost.insert([number_of(file), number_of(block)], line);
            }
        }
        counts.writes_lost += lost.len() as u64;
        let due = told_of_forgotten(station, what, opened, &lost);
        let grants = sentence.strip_prefix(due.as_bytes()).ok_or(&due[..])?;
        let openers = granted.chunks_exact(4).map(|granted| granted[0]).collect::<Vec<_>>();
        let told = opens_told(grants);
        if told.iter().map(|[opener, _]| *opener).ne(openers.iter().copied()) {
            return Err(format!("{due}; and the grants of the reply"));
        }
        told.into_iter().for_each(|open| *self.opens.entry(open).or_default() += 1);
        Ok(())
    }

    /// The copy is told as in any read, and its value is given.
    fn judge_read_under_embargo(&self, place: Place<'a>, value: &[u8], sentence: &[u8]) -> Result<(), String> {
        let [station, file, block] = place.map(text);
        let copied = self.copies.get(&place).ok_or("no value: the station has no copy")?;
        let dirty = if copied.written && !self.cleaned_since(place, copied.line) { ", dirty" } else { "" };
        let copy = format!("from its own copy{dirty}, since line {}", copied.line);
        let promise = format!("nothing is promised: it{}", self.since(place[0]));
        let due = format!("station {station}, file {file} block {block}: {copy}; {promise}");
        holds(value == copied.value && sentence == due.as_bytes(), format!("V {}    {due}", text(copied.value)))
    }

    fn judge_read(
        &mut self,
        place: Place<'a>,
        value: Number<'a>,
        sentence: &[u8],
        counts: &mut Provenance,
    ) -> Result<(), String> {
        let [station, file, block] = place.map(|number| str::from_utf8(number).unwrap_or("?"));
        let (due, origin) = self.origin(place);
        let writes = self.writes.get(&[place[1], place[2]]);
        let (written, is_after_a_loss) = (writes.is_some(), writes.is_some_and(|writes| writes.lost.is_some()));
        let copied = self.copies.get(&place);
        let dirty = copied.is_some_and(|copied| copied.written && !self.cleaned_since(place, copied.line));
        let begin = format!("station {station}, file {file} block {block}: from ");
        let since = copied.map_or("no line".into(), |copied| copied.line.to_string());
        let copy = format!("its own copy{}, since line {since}", if dirty { ", dirty" } else { "" });
        let source = sentence.strip_prefix(begin.as_bytes()).and_then(|rest| rest.strip_suffix(origin.as_bytes()));
        let told_as_the_servers = source == Some(b"the server");
        if value != due || !told_as_the_servers && source != Some(copy.as_bytes()) {
            return Err(format!("V {}    {begin}the server, or {copy}{origin}", String::from_utf8_lossy(due)));
        }
        counts.unwritten += u64::from(!written);
        counts.after_a_loss += u64::from(is_after_a_loss);
        if told_as_the_servers {
            counts.from_the_server += 1;
            // Without permission nothing is held: no copy is told before it is fetched or written.
            self.copies.insert(place, Copied { line: self.line, written: false, value });
        } else {
            counts.from_a_copy += 1;
            counts.from_a_dirty_copy += u64::from(dirty);
        }
        Ok(())
    }

    /// The value that a read of the block must give, and the end of its sentence.
    fn origin(&self, [_, file, block]: Place<'a>) -> (&[u8], String) {
        let writes = self.writes.get(&[file, block]);
        let lost = writes.and_then(|writes| writes.lost);
        let and_lost = lost.map_or(String::new(), |Write { line, station, .. }| {
            format!("; the write of station {} at line {line} was lost", text(station))
        });
        let (value, origin) = match (writes.and_then(Writes::latest), &self.image) {
            (Some(Write { line, station, value }), _) => {
                (*value, format!("; written by station {} at line {line}", text(station)))
            }
            (None, Some(blocks)) => {
                let value = blocks.get(&[file.to_vec(), block.to_vec()]);
                (value.map_or(&b"0"[..], |value| value), "; as the image has it".into())
            }
            (None, None) if lost.is_some() => (&b"0"[..], "; as at the start".into()),
            (None, None) => (&b"0"[..], "; never written".into()),
        };
        (value, origin + &and_lost)
    }

    /// Whether the copy has been flushed, or written back by a callback reply, after this line.
    fn cleaned_since(&self, place: Place<'a>, line: u64) -> bool {
        let after = |cleaned: Option<&u64>| cleaned.is_some_and(|&cleaned| cleaned > line);
        after(self.flushes.get(&place)) || after(self.answers.get(&[place[0], place[1]]))
    }
}

fn text(number: Number<'_>) -> &str {
    str::from_utf8(number).unwrap_or("?")
}

fn number_of(written: Number) -> u64 {
    text(written).parse().unwrap_or(u64::MAX)
}

/// An error, of what should be said, unless this is so.
fn holds(is_so: bool, due: String) -> Result<(), String> {
    if is_so { Ok(()) } else { Err(due) }
}

fn or_none(list: String) -> String {
    if list.is_empty() { " none".into() } else { list }
}

fn list(numbers: &[u64]) -> String {
    or_none(numbers.iter().map(|number| format!(" {number}")).collect())
}

/// What the sentence of a restart or an embargo begins with.
fn told_of_forgotten(station: Number, what: &str, opened: &[u64], lost: &BTreeMap<[u64; 2], u64>) -> String {
    let lost = lost.iter().map(|([file, block], line)| format!(" file {file} block {block} at line {line}"));
    let lost = or_none(lost.collect::<Vec<_>>().join(","));
    format!("station {} {what}; files it had open:{}; writes lost:{lost}", text(station), list(opened))
}

/// The station and the file of each grant that is told.
fn opens_told(grants: &[u8]) -> Vec<[Number<'_>; 2]> {
    let words = fields_of(grants);
    let told = words.windows(5).filter_map(|words| match *words {
        [b"station", opener, b"has", b"file", file] => Some([opener, file]),
        _ => None,
    });
    told.collect()
}

fn fields_of(line: &[u8]) -> Vec<&[u8]> {
    line.split(|&byte| byte == b' ').collect()
}

/// What stands before the first four spaces, and what stands after them.
fn split_at_four_spaces(text: &[u8]) -> Option<(&[u8], &[u8])> {
    let at = text.windows(4).position(|four| four == b"    ")?;
    Some((&text[..at], &text[at + 4..]))
}
