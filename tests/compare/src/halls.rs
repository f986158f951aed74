//! Random halls with every field in 01's ranges and all rules between fields
//! kept, most of which no run reaches.

use crate::random::Random;
use crate::rows;
use reference::hall::{
    all_recorders, built_in_votes, entry_bit, entry_set, holds_recorder, recorder_bit,
    LAST_ORDER_MARK, LAST_QUEUE_MARK, LAST_SEQ, MOST_ENTRIES, MOST_LABELS, MOST_PENDING,
    MOST_QUEUED, MOST_VIEWS,
};
use reference::{open, Entry, Hall, Label, Message, Phase, Queued, Recorder, Seat, Summary, View};

/// Numbers of views.
#[derive(Clone, Copy)]
enum Numbers {
    Low,
    Any,
    /// This one, and those that differ from it in one bit.
    Near(u32),
}

impl Numbers {
    fn random(random: &mut Random) -> Numbers {
        match random.below(4) {
            0 => Numbers::Any,
            1 => Numbers::Near(random.word() >> random.below(32)),
            _ => Numbers::Low,
        }
    }

    /// A number from 1 on.
    fn one(self, random: &mut Random) -> u32 {
        match self {
            Numbers::Low => random.between(1, 4),
            Numbers::Any if random.one_in(8) => u32::MAX - random.between(0, 1),
            Numbers::Any => 1.max(random.word() >> random.below(32)),
            Numbers::Near(number) if random.one_in(4) => 1.max(number),
            Numbers::Near(number) => 1.max(number ^ 1 << random.below(32)),
        }
    }

    /// A highest primary: such a number, or 0 for none.
    fn high(self, random: &mut Random) -> u32 {
        if random.one_in(4) {
            0
        } else {
            self.one(random)
        }
    }
}

/// What a hall is full of, drawn once for each hall.
struct Style {
    n: u32,
    numbers: Numbers,
    /// Most summaries are sent and queued, and recorders collect them.
    exchange: bool,
    /// Most messages have been received.
    received: bool,
    /// Marks are low.
    low: bool,
    /// Lists are mostly short.
    sparse: bool,
}

impl Style {
    fn random(random: &mut Random) -> Style {
        Style {
            n: random.between(1, 8),
            numbers: Numbers::random(random),
            exchange: random.coin(),
            received: random.coin(),
            low: random.coin(),
            sparse: random.coin(),
        }
    }
}

/// How long a list is: often empty, short, full, or one place short of full.
fn length(random: &mut Random, style: &Style, most: usize) -> usize {
    let short = random.below(5).min(most);
    if style.sparse && !random.one_in(6) {
        return short;
    }
    match random.below(6) {
        0 => 0,
        1 => most,
        2 => most - 1,
        3 => short,
        _ => random.below(most + 1),
    }
}

fn entries(random: &mut Random, style: &Style) -> Vec<Entry> {
    let count = match random.below(5) {
        0 => 0,
        1 => MOST_ENTRIES,
        2 => random.below(6),
        _ => random.below(MOST_ENTRIES + 1),
    };
    // How many entries in four have no label.
    let waiting = random.pick(&[0, 0, 1, 2, 4]);
    let mut entries: Vec<Entry> = Vec::new();
    for _ in 0..count {
        let sender = random.between(1, style.n);
        let label = Label {
            view: style.numbers.one(random),
            seq: random.between(1, LAST_SEQ),
            sender,
        };
        let taken = entries.iter().any(|entry| entry.label == Some(label));
        entries.push(Entry {
            sender,
            value: random.word() >> random.below(32),
            label: (!taken && random.below(4) >= waiting).then_some(label),
        });
    }
    entries
}

/// What lists and sets may name: the labelled entries.
struct Names(Vec<usize>);

impl Names {
    fn of(entries: &[Entry]) -> Names {
        let labelled = |&entry: &usize| entries[entry].label.is_some();
        Names((0..entries.len()).filter(labelled).collect())
    }

    fn list(&self, random: &mut Random, style: &Style) -> Vec<usize> {
        let count = length(random, style, MOST_LABELS);
        (0..count)
            .filter_map(|_| random.pick_any(&self.0))
            .collect()
    }

    /// None, all, or any of them.
    fn set(&self, random: &mut Random) -> u64 {
        let mask = match random.below(4) {
            0 => 0,
            1 => u64::MAX,
            2 => random.next() & random.next(),
            _ => random.next(),
        };
        self.0.iter().fold(0, |set, entry| set | 1 << entry) & mask
    }
}

/// Rising numbers of formed views; there are only a few low ones.
fn numbers(random: &mut Random, style: &Style) -> Vec<u32> {
    let count = match random.below(4) {
        0 => random.below(MOST_VIEWS + 1),
        1 if style.sparse => 0,
        1 => MOST_VIEWS,
        _ => 1 + random.below(3),
    };
    let drawn = match style.numbers {
        Numbers::Low if count > 4 => Numbers::Any,
        numbers => numbers,
    };
    let mut numbers: Vec<u32> = Vec::new();
    while numbers.len() < count {
        let number = drawn.one(random);
        if !numbers.contains(&number) {
            numbers.push(number);
        }
    }
    numbers.sort_unstable();
    numbers
}

fn summary(random: &mut Random, style: &Style, names: &Names) -> Summary {
    Summary {
        known: names.set(random),
        order: names.list(random, style),
        confirm: random.between(1, LAST_ORDER_MARK),
        high: style.numbers.high(random),
    }
}

/// A message of a member, if there is anything it can name.
fn message(random: &mut Random, style: &Style, names: &Names, sent: bool) -> Option<Message> {
    let summary_in = if style.exchange { 2 } else { 6 };
    if sent && random.one_in(summary_in) {
        return Some(Message::Summary);
    }
    let entry = random.pick_any(&names.0).map(Message::Entry);
    entry.or(sent.then_some(Message::Summary))
}

/// A mark within a queue or just after it, or any.
fn queue_mark(random: &mut Random, queue: usize) -> u32 {
    if random.one_in(4) {
        random.between(1, LAST_QUEUE_MARK)
    } else {
        1 + random.below(queue + 1) as u32
    }
}

fn seat(random: &mut Random, style: &Style, names: &Names, member: bool) -> Seat {
    let sent = member && random.below(8) < if style.exchange { 7 } else { 3 };
    let count = if member {
        length(random, style, MOST_PENDING)
    } else {
        0
    };
    let message = |_| message(random, style, names, sent);
    let pending = (0..count).filter_map(message).collect();
    Seat {
        pending,
        receive: 1,
        safe: 1,
        summary: sent.then(|| summary(random, style, names)),
    }
}

fn queue(random: &mut Random, style: &Style, names: &Names, view: &View) -> Vec<Queued> {
    let members: Vec<u32> = (1..=style.n).filter(|&k| view.has(k)).collect();
    let count = length(random, style, MOST_QUEUED);
    let queued = |_| {
        let source = random.pick(&members);
        let sent = view.seat(source).summary.is_some();
        let message = message(random, style, names, sent)?;
        Some(Queued { source, message })
    };
    (0..count).filter_map(queued).collect()
}

fn view(random: &mut Random, style: &Style, names: &Names, number: u32) -> View {
    let all = (1 << style.n) - 1;
    let members = if random.one_in(3) {
        all
    } else {
        random.between(1, all)
    };
    let mut view = View::formed(style.n, number, members);
    for k in 1..=style.n {
        *view.seat_mut(k) = seat(random, style, names, members >> (k - 1) & 1 != 0);
    }
    view.queue = queue(random, style, names, &view);
    for seat in &mut view.seats {
        seat.receive = queue_mark(random, view.queue.len());
        seat.safe = queue_mark(random, view.queue.len());
        if style.received && !random.one_in(8) {
            seat.receive = LAST_QUEUE_MARK;
        }
    }
    view
}

/// The members of a view that have sent a summary in it.
fn sent_summaries(view: &View) -> u32 {
    let seats = (1..).zip(&view.seats);
    let sent = seats.filter(|(_, seat)| seat.summary.is_some());
    sent.fold(0, |set, (source, _)| set | recorder_bit(source))
}

/// The sources that may be marked heard, all but one of them, or any of them.
fn sources(random: &mut Random, allowed: u32) -> u32 {
    match random.below(4) {
        0 => allowed,
        1 => allowed & !(1 << random.below(8)),
        2 => 0,
        _ => allowed & random.word(),
    }
}

/// A next sequence number, often past the last one or that of a label of K.
fn next_seq(random: &mut Random, entries: &[Entry], k: u32) -> u32 {
    let labels = entries.iter().filter_map(|entry| entry.label);
    let used: Vec<u32> = labels.filter(|l| l.sender == k).map(|l| l.seq).collect();
    match random.below(4) {
        0 => LAST_SEQ + 1,
        1 | 2 if !used.is_empty() => random.pick(&used),
        _ => random.between(1, LAST_SEQ + 1),
    }
}

fn recorder(
    random: &mut Random,
    style: &Style,
    entries: &[Entry],
    views: &[View],
    k: u32,
) -> Recorder {
    let names = &Names::of(entries);
    let own: Vec<usize> = (0..views.len()).filter(|&i| views[i].has(k)).collect();
    let chosen = random.pick_any(&own).filter(|_| !random.one_in(8));
    let view = chosen.map(|index| &views[index]);
    let members = view.map_or(0, |view| view.members);
    let sent = view.map_or(0, sent_summaries);
    let phases = [Phase::Normal, Phase::Send, Phase::Collect];
    let mark = |random: &mut Random| random.between(1, if style.low { 8 } else { LAST_ORDER_MARK });
    Recorder {
        current: view.map_or(0, |view| view.number),
        phase: if style.exchange && random.coin() {
            Phase::Collect
        } else {
            random.pick(&phases)
        },
        known: names.set(random),
        next_seq: next_seq(random, entries, k),
        buffer: names.list(random, style),
        order: names.list(random, style),
        safe_labels: names.set(random),
        confirm: mark(random),
        report: mark(random),
        high: style.numbers.high(random),
        heard: sources(random, sent),
        safe_sources: sources(random, members),
    }
}

/// A random hall with a random row of votes.
pub fn voting(random: &mut Random) -> Hall {
    let mut hall = hall(random);
    hall.votes = rows::passing(random, hall.n);
    hall
}

/// A random hall with the built-in row.
pub fn hall(random: &mut Random) -> Hall {
    let style = Style::random(random);
    let entries = entries(random, &style);
    let names = Names::of(&entries);
    let numbers = numbers(random, &style);
    let formed = numbers.into_iter();
    let views: Vec<View> = formed.map(|k| view(random, &style, &names, k)).collect();
    let recorders = 1..=style.n;
    let recorders = recorders.map(|k| recorder(random, &style, &entries, &views, k));
    let recorders = recorders.collect();
    Hall {
        n: style.n,
        entries,
        views,
        recorders,
        votes: built_in_votes(style.n),
    }
}

/// A summary that may well be as high or as long as another one of a view: of
/// at least so many places, and three more at most. One in three knows just its
/// order, in which no entry stands twice, as in a run.
fn close_summary(random: &mut Random, names: &Names, least: usize, high: u32) -> Summary {
    let length = least + random.below(4);
    let (order, known) = if random.one_in(3) {
        let turned = names.0.iter().cycle().skip(random.below(names.0.len()));
        let order: Vec<usize> = turned.take(length.min(names.0.len())).copied().collect();
        let known = entry_set(&order);
        (order, known)
    } else {
        let order = (0..length).map(|_| random.pick(&names.0)).collect();
        let some = names.set(random) & 0xff << random.below(64);
        (order, random.pick(&[0, 0, some]))
    };
    Summary {
        known,
        order,
        confirm: random.between(1, LAST_ORDER_MARK),
        high: high - u32::from(random.one_in(3)),
    }
}

/// A random hall with a view of several members and more than so many labelled
/// entries.
fn hall_with_members(random: &mut Random, entries: usize) -> (Hall, usize) {
    let several = |view: &View| view.members.count_ones() > 1;
    loop {
        let hall = voting(random);
        match hall.views.iter().position(several) {
            Some(index) if Names::of(&hall.entries).0.len() > entries => return (hall, index),
            _ => (),
        }
    }
}

/// Puts the summary of a source somewhere into a view's queue; at which mark.
fn queue_summary(random: &mut Random, view: &mut View, source: u32) -> u32 {
    let before = random.below(MOST_QUEUED.min(view.queue.len() + 1));
    let message = Message::Summary;
    view.queue.insert(before, Queued { source, message });
    view.queue.truncate(MOST_QUEUED);
    1 + before as u32
}

/// A random hall, and R whose next step of a kind, 8 or 9, gets the last summary
/// of its view: all members have sent one, and all others are heard, or safe.
pub fn before_the_last(random: &mut Random, kind: u32) -> (Hall, u32) {
    let least = random.pick(&[0, 0, 0, MOST_LABELS - 3]);
    let (mut hall, index) = hall_with_members(random, least);
    let names = Names::of(&hall.entries);
    let view = &mut hall.views[index];
    let members: Vec<u32> = (1..=hall.n).filter(|&k| view.has(k)).collect();
    let high = 1.max(random.word() >> random.below(32));
    for &k in &members {
        view.seat_mut(k).summary = Some(close_summary(random, &names, least, high));
        view.seat_mut(k).receive = LAST_QUEUE_MARK;
    }
    let (r, source) = (random.pick(&members), random.pick(&members));
    let mark = queue_summary(random, view, source);
    let others = view.members & !recorder_bit(source);
    let seat = view.seat_mut(r);
    let heard = match kind {
        8 => {
            seat.receive = mark;
            others
        }
        _ => {
            seat.safe = mark;
            view.members & random.word()
        }
    };
    let current = view.number;
    let recorder = hall.recorder_mut(r);
    recorder.current = current;
    recorder.phase = Phase::Collect;
    recorder.heard = heard;
    recorder.safe_sources = others;
    (hall, r)
}

/// A random hall whose greatest view is mostly primary, with most members in it;
/// such a member is not about to send a summary that it has sent.
pub fn to_settle(random: &mut Random) -> Hall {
    let mut hall = voting(random);
    let Some(view) = hall.views.last().cloned() else {
        return hall;
    };
    while !hall.is_primary(&view) && !random.one_in(8) {
        hall.votes = rows::passing(random, hall.n);
    }
    let sent = sent_summaries(&view);
    for r in (1..=hall.n).filter(|&r| view.has(r)) {
        if random.one_in(8) {
            continue;
        }
        let recorder = hall.recorder_mut(r);
        recorder.current = view.number;
        recorder.heard = sources(random, sent);
        recorder.safe_sources = sources(random, view.members);
        if holds_recorder(sent, r) && recorder.phase == Phase::Send {
            recorder.phase = random.pick(&[Phase::Normal, Phase::Collect]);
        }
    }
    hall
}

/// A hall just opened, of any size.
fn opened(random: &mut Random) -> Hall {
    let n = random.between(1, 8);
    let founders = all_recorders(n);
    open(n, founders, rows::passing(random, n)).expect("the opening is taken")
}

/// An entry, with a label of view 1 or none.
fn entry(sender: u32, seq: Option<u32>) -> Entry {
    let label = |seq: u32| Label {
        view: 1,
        seq,
        sender,
    };
    Entry {
        sender,
        value: 0,
        label: seq.map(label),
    }
}

/// A hall in which a recorder has one entry more to send than its buffer holds.
/// Nobody receives what it sends: all marks are past the queue.
pub fn long_buffer(random: &mut Random) -> Hall {
    let mut hall = opened(random);
    let sender = random.between(1, hall.n);
    let waiting = random.between(1, 8) as usize;
    hall.entries = vec![entry(sender, None); waiting];
    hall.entries.push(entry(sender, Some(LAST_SEQ)));
    let recorder = hall.recorder_mut(sender);
    recorder.known = entry_bit(waiting);
    recorder.buffer = vec![waiting; MOST_LABELS + 1 - waiting];
    for seat in &mut hall.views[0].seats {
        seat.receive = LAST_QUEUE_MARK;
    }
    hall
}

/// A hall in whose view all members have sent summaries, which stand in the
/// queue. They are at any place of the exchange, and nothing else is to be sent.
pub fn in_exchange(random: &mut Random) -> Hall {
    let mut hall = opened(random);
    let count = random.between(1, 16);
    hall.entries = (1..=count).map(|seq| entry(1, Some(seq))).collect();
    let names = Names::of(&hall.entries);
    let view = &mut hall.views[0];
    for k in 1..=hall.n {
        view.seat_mut(k).summary = Some(close_summary(random, &names, 0, 1));
        for _ in 0..random.between(1, 3) {
            queue_summary(random, view, k);
        }
    }
    for seat in &mut view.seats {
        seat.receive = queue_mark(random, view.queue.len());
        seat.safe = queue_mark(random, view.queue.len());
    }
    let members = view.members;
    for recorder in &mut hall.recorders {
        recorder.phase = random.pick(&[Phase::Normal, Phase::Collect]);
        recorder.heard = sources(random, members);
        recorder.safe_sources = sources(random, members);
    }
    hall
}
