//! Random runs with fixed seeds, and what must hold of each of them:
//! - of two delivered lists one begins the other;
//! - each delivered list has each sender's first entries, in order;
//! - of two recorders, the confirmed list of the one with the lower or equal
//!   highest primary begins the other's order;
//! - of two recorders with the same highest primary, the one's order begins the
//!   other's;
//! - no list is ever full (40), and an entry to send or deliver is always
//!   known (39 at kinds 3 and 11);
//! - with HL3's choice no entry in an order leaves its place, unless another
//!   member of the view knows of a higher primary;
//! - a settle, where there is one, is the run of its steps, all accepted, at most
//!   2,392; it is refused with 42 alone, just where the greatest view is not
//!   primary; after it none of its calls is allowed, and all that was submitted at
//!   a member has been delivered at every member.
//!
//! All but the one on places hold for whichever source with the greatest highest
//! primary represents, the same one for every member of a view: for HL3's choice,
//! for 01's, and for one that changes from view to view. All hold for every row of
//! votes that passes. They do not hold for a choice that looks at the length
//! first, nor the one on places for 01's, nor for a row that changes on the way,
//! nor for a settle that leaves out a kind, a step or 42, which shows that these
//! runs can fail.

mod random;

use random::Random;
use reference::choice::{
    greatest_number, least_number, length_first, longest_order, trying, Choice, Source,
};
use reference::exchange::heard_sources;
use reference::hall::{at_mark, is_quorum, judge_votes, place_of, recorder_bit, MOST_VOTES};
use reference::settle::{turn_actions, KINDS, MOST_STEPS};
use reference::{
    actions, built_in_votes, open, refusal, Answer, Hall, Phase, Recorder, View, Votes,
};
use std::collections::BTreeMap;

/// Runs with HL3's choice, with each other one, with what is wrong, with rows of
/// votes, with settles, and with each wrong settle.
const RUNS: u64 = 240;
const OTHER_RUNS: u64 = 120;
const WRONG_RUNS: u64 = 800;
const ROW_RUNS: u64 = 240;
const SETTLE_RUNS: u64 = 120;
const WRONG_SETTLE_RUNS: u64 = 10;
/// Steps between two looks at the whole hall.
const BETWEEN_LOOKS: u32 = 40;

/// Another choice in each of three views.
fn by_view<'a>(view: u32, sources: &[Source<'a>]) -> Source<'a> {
    match view % 3 {
        0 => longest_order(view, sources),
        1 => greatest_number(view, sources),
        _ => least_number(view, sources),
    }
}

/// The row of votes of a run.
#[derive(Clone, Copy, PartialEq, Eq)]
enum Rows {
    BuiltIn,
    Given,
    /// Another one after each look. No hall has that.
    Changing,
}

/// A row that passes, of any kind: small votes, any, the same for all, all for
/// one, or all for two.
fn random_row(random: &mut Random, n: u32) -> Votes {
    let most = pick(random, &[1, 3, MOST_VOTES]);
    let mut row = [0; 8];
    match random.below(6) {
        0 => row[..n as usize].fill(most),
        1 => row[random.below(n) as usize] = most,
        2 => {
            row[random.below(n) as usize] = most;
            row[random.below(n) as usize] = 1;
        }
        _ => row[..n as usize].fill_with(|| random.between(0, most)),
    }
    match judge_votes(n, &row) {
        Ok(()) => row,
        Err(_) => random_row(random, n),
    }
}

impl Rows {
    fn row(self, random: &mut Random, n: u32) -> Votes {
        match self {
            Rows::BuiltIn => built_in_votes(n),
            _ => random_row(random, n),
        }
    }
}

/// Settles a hall and gives the steps taken, as `Hall::settle` does.
type Settling<'a> = &'a dyn Fn(&mut Hall) -> Result<Vec<[u32; 4]>, u32>;

/// What does not hold of a run.
type Broken = &'static str;

const LABELLED: Broken = "the k-th label at a sender is not that of its k-th entry";
const SENDERS: Broken = "a delivered list has not a sender's first entries, in order";
const DELIVERED: Broken = "of two delivered lists none begins the other";
const CONFIRMED: Broken = "a confirmed list does not begin the order of a primary as high";
const SAME_PRIMARY: Broken = "two orders of one primary, and none begins the other";
const FULL: Broken = "a list is full";
const NOT_KNOWN: Broken = "an entry to send or deliver is not known";
const SETTLE_REFUSED: Broken = "42 is not given just where the greatest view is not primary";
const SETTLE_LONG: Broken = "a settle has too many steps";
const SETTLE_RUN: Broken = "a settle is not the run of its steps";
const SETTLE_ENDS: Broken = "a call is left after a settle";
const SETTLE_COMPLETE: Broken = "an entry of a member is not delivered at all after a settle";

fn hold(holds: bool, broken: Broken) -> Result<(), Broken> {
    if holds {
        Ok(())
    } else {
        Err(broken)
    }
}

/// One of a list.
fn pick(random: &mut Random, list: &[u32]) -> u32 {
    list[random.below(list.len() as u32) as usize]
}

/// How the actions of a run are chosen.
struct Style {
    steps: u32,
    /// Weights of the kinds 1 to 11.
    weights: [u32; 11],
    /// Steps for which one recorder is slow to receive and to enter.
    slow_for: u32,
    /// How far a new view's number is above the last one, at most.
    apart: u32,
}

impl Style {
    fn random(random: &mut Random, n: u32) -> Style {
        let steps = random.between(1_000, 4_000);
        let submit = pick(random, &[8, 16, 40]);
        let form = pick(random, &[2, 6, 14]);
        Style {
            // Large halls need more steps to complete a view.
            steps: if n > 4 { 2 * steps } else { steps },
            weights: [submit, 60, 60, 60, form, 60, 150, 300, 250, 100, 60],
            slow_for: pick(random, &[200, 400, 800]),
            apart: pick(random, &[3, 300, 1 << 28]),
        }
    }

    /// The slow recorder at a place of the run.
    fn slow(&self, n: u32, place: u32) -> u32 {
        1 + place / self.slow_for % n
    }

    /// The recorder that acts, seldom the slow one.
    fn recorder(&self, random: &mut Random, n: u32, kind: u32, slow: u32) -> u32 {
        let r = random.between(1, n);
        let slowed = r == slow && matches!(kind, actions::ENTER | actions::RECEIVE);
        if slowed && !random.one_in(30) {
            1 + r % n
        } else {
            r
        }
    }

    fn kind(&self, random: &mut Random) -> u32 {
        let mut left = random.below(self.weights.iter().sum());
        for (kind, &weight) in (1..).zip(&self.weights) {
            if left < weight {
                return kind;
            }
            left -= weight;
        }
        unreachable!("left was below the sum of the weights")
    }

    /// A kind and a recorder, mostly such that the action may well be allowed.
    fn fitting(&self, random: &mut Random, hall: &Hall, slow: u32) -> (u32, u32) {
        let (mut kind, mut r) = (1, 1);
        for _ in 0..8 {
            kind = self.kind(random);
            r = self.recorder(random, hall.n, kind, slow);
            if random.one_in(8) || fits(hall, kind, r) {
                break;
            }
        }
        (kind, r)
    }

    fn action(&self, random: &mut Random, hall: &Hall, place: u32) -> [u32; 4] {
        if random.one_in(50) {
            return junk_action(random);
        }
        let slow = self.slow(hall.n, place);
        let (kind, r) = self.fitting(random, hall, slow);
        match kind {
            actions::SUBMIT => [kind, r, random.below(1_000), 0],
            actions::FORM => [
                kind,
                0,
                self.new_number(random, hall),
                new_set(random, hall.n, slow),
            ],
            actions::ENTER => [kind, r, view_to_enter(random, hall, r), 0],
            actions::PLACE => [kind, r, view_to_place(random, hall, r), 0],
            _ => [kind, r, 0, 0],
        }
    }

    /// A number above the formed ones, or the greatest if that is formed.
    fn new_number(&self, random: &mut Random, hall: &Hall) -> u32 {
        let last = hall.views.last().map_or(0, |view| view.number);
        last.saturating_add(random.between(1, self.apart))
    }
}

/// Whether an action of a kind at R may well be allowed.
fn fits(hall: &Hall, kind: u32, r: u32) -> bool {
    let recorder = hall.recorder(r);
    let Some(index) = hall.current_index(r) else {
        return matches!(kind, actions::SUBMIT | actions::FORM | actions::ENTER);
    };
    let view = &hall.views[index];
    let seat = view.seat(r);
    let normal = recorder.phase == Phase::Normal;
    match kind {
        actions::LABEL => normal && hall.first_waiting(r).is_some(),
        actions::SEND_ENTRY => normal && !recorder.buffer.is_empty(),
        actions::SEND_SUMMARY => recorder.phase == Phase::Send,
        actions::PLACE => !seat.pending.is_empty(),
        actions::RECEIVE => at_mark(&view.queue, seat.receive).is_some(),
        actions::SAFE => at_mark(&view.queue, seat.safe).is_some() && view.all_received(seat.safe),
        actions::CONFIRM => at_mark(&recorder.order, recorder.confirm).is_some(),
        actions::DELIVER => recorder.report < recorder.confirm,
        _ => true,
    }
}

fn junk_action(random: &mut Random) -> [u32; 4] {
    const WORDS: [u32; 9] = [0, 1, 2, 3, 8, 12, 255, 256, u32::MAX];
    let mut word = || pick(random, &WORDS);
    let [r, a, b] = [word(), word(), word()];
    [random.below(13), r, a, b]
}

/// All recorders, all but the slow one, or a random set, so that halls split
/// and merge.
fn new_set(random: &mut Random, n: u32, slow: u32) -> u32 {
    let all = (1 << n) - 1;
    match random.below(4) {
        0 => all,
        1 if n > 1 => all & !(1 << (slow - 1)),
        _ => random.between(1, all),
    }
}

/// A formed view above R's current one, more often the newest.
fn view_to_enter(random: &mut Random, hall: &Hall, r: u32) -> u32 {
    let current = hall.recorder(r).current;
    let above = |view: &&View| view.has(r) && view.number > current;
    let numbers: Vec<u32> = hall.views.iter().filter(above).map(|v| v.number).collect();
    match numbers.last() {
        None => 1,
        Some(&newest) if random.one_in(2) => newest,
        Some(_) => pick(random, &numbers),
    }
}

/// R's current view, or now and then any formed one.
fn view_to_place(random: &mut Random, hall: &Hall, r: u32) -> u32 {
    let current = hall.recorder(r).current;
    if current == 0 || random.one_in(5) {
        let index = random.below(hall.views.len() as u32);
        hall.views[index as usize].number
    } else {
        current
    }
}

/// How often the runs met what they are made for.
#[derive(Debug, Default)]
struct Counts {
    steps: u64,
    accepted: u64,
    delivered: u64,
    /// Delivered in a later view than the one of the label.
    delivered_later: u64,
    /// Delivered with a view number in the label that takes four bytes.
    delivered_far: u64,
    /// Views completed by a recorder, with a quorum and without.
    primary_completed: u64,
    other_completed: u64,
    /// Those of them where the sources with the greatest highest primary have
    /// orders of unequal length.
    primary_unequal: u64,
    other_unequal: u64,
    /// Orders in which an entry left its place though no member of the view had
    /// sent a higher primary than the recorder's own.
    shifted: u64,
    /// Primary views completed after another recorder completed a higher one.
    completed_late: u64,
    /// Views completed that are primary by the row alone, and by the built-in
    /// one alone.
    primary_by_row: u64,
    other_by_row: u64,
    /// Those of them where recorder 1 is no member, and where it has no votes.
    without_1: u64,
    no_votes_of_1: u64,
    /// Pairs of recorders compared whose highest primaries differ, and where
    /// the lower one has confirmed something.
    unequal_pairs: u64,
    /// Settles with steps, without any, and refused with 42.
    settled: u64,
    settled_before: u64,
    not_settled: u64,
    /// Settles with a member that has yet to enter, to send its summary, and to
    /// collect the others'.
    to_enter: u64,
    to_send: u64,
    to_collect: u64,
    /// Settles in a view that is not of all.
    settled_apart: u64,
    /// Delivered by settles in a later view than the one of the label.
    settled_later: u64,
    /// The steps of the longest one.
    longest_settle: u64,
}

/// A hall and the lists that its run has given for each recorder.
struct Run {
    choice: Choice,
    hall: Hall,
    submitted: Vec<Vec<usize>>,
    labelled: Vec<Vec<usize>>,
    delivered: Vec<Vec<usize>>,
    counts: Counts,
}

impl Run {
    fn opened(choice: Choice, n: u32, founders: u32, row: Votes) -> Run {
        let lists = vec![Vec::new(); n as usize];
        Run {
            choice,
            hall: open(n, founders, row).expect("the opening is taken"),
            submitted: lists.clone(),
            labelled: lists.clone(),
            delivered: lists,
            counts: Counts::default(),
        }
    }

    /// Performs an action and notes what it did.
    fn step(&mut self, action: [u32; 4]) -> Result<Answer, Broken> {
        let [k, r, ..] = action;
        self.counts.steps += 1;
        let before = self.before_at(r);
        let answer = self.hall.step_with(self.choice, action);
        if let Answer::Refused(number) = answer {
            judge_refusal(k, number)?;
            return Ok(answer);
        }
        self.counts.accepted += 1;
        match k {
            actions::SUBMIT => self.note_submit(r),
            actions::LABEL => self.note_label(r, before),
            actions::RECEIVE => self.note_receive(r, before),
            actions::DELIVER => self.note_delivery(r, before, answer),
            _ => (),
        }
        Ok(answer)
    }

    /// Settles the hall, as the run of the steps that the settle gives.
    fn settle(&mut self, settling: Settling) -> Result<(), Broken> {
        let mut settled = self.hall.clone();
        let result = trying(self.choice, || settling(&mut settled));
        hold(result != Err(refusal::FULL), FULL)?;
        let wanted = self.settle_refusal();
        hold(result.as_ref().err() == wanted.as_ref(), SETTLE_REFUSED)?;
        let Ok(steps) = result else {
            self.counts.not_settled += 1;
            return hold(self.hall == settled, SETTLE_RUN);
        };
        hold(steps.len() <= MOST_STEPS, SETTLE_LONG)?;
        self.note_settle(steps.len() as u64);
        let delivered_later = self.counts.delivered_later;
        for step in steps {
            let answer = self.step(step)?;
            hold(!is_refused(answer), SETTLE_RUN)?;
        }
        self.counts.settled_later += self.counts.delivered_later - delivered_later;
        hold(self.hall == settled, SETTLE_RUN)?;
        self.check_complete()?;
        self.check_none_left()
    }

    /// The view with the greatest number, which comes last.
    fn greatest_view(&self) -> &View {
        self.hall.views.last().expect("a run has view 1")
    }

    /// The refusal of a settle.
    fn settle_refusal(&self) -> Option<u32> {
        let primary = self.hall.is_primary(self.greatest_view());
        (!primary).then_some(refusal::NOT_PRIMARY)
    }

    /// The recorders that are members of the greatest view.
    fn members(&self) -> impl Iterator<Item = u32> + '_ {
        (1..=self.hall.n).filter(|&r| self.greatest_view().has(r))
    }

    /// Notes a settle that is about to take its steps.
    fn note_settle(&mut self, steps: u64) {
        self.counts.longest_settle = self.counts.longest_settle.max(steps);
        if steps == 0 {
            self.counts.settled_before += 1;
            return;
        }
        let number = self.greatest_view().number;
        let members: Vec<&Recorder> = self.members().map(|r| self.hall.recorder(r)).collect();
        let is_in = |member: &Recorder, phase| member.current == number && member.phase == phase;
        let to_enter = members.iter().any(|member| member.current != number);
        let to_send = members.iter().any(|member| is_in(member, Phase::Send));
        let to_collect = members.iter().any(|member| is_in(member, Phase::Collect));
        let apart = members.len() < self.hall.recorders.len();
        self.counts.settled += 1;
        self.counts.to_enter += u64::from(to_enter);
        self.counts.to_send += u64::from(to_send);
        self.counts.to_collect += u64::from(to_collect);
        self.counts.settled_apart += u64::from(apart);
    }

    /// What stands at recorder R before an action, if there is such a recorder.
    fn before_at(&self, r: u32) -> Before {
        if !(1..=self.hall.n).contains(&r) {
            return Before::default();
        }
        let recorder = self.hall.recorder(r);
        Before {
            first_waiting: self.hall.first_waiting(r),
            at_report: recorder.order.get(recorder.report as usize - 1).copied(),
            collecting: recorder.phase == Phase::Collect,
            order: recorder.order.clone(),
            high: recorder.high,
        }
    }

    fn note_submit(&mut self, r: u32) {
        let entry = self.hall.entries.len() - 1;
        self.submitted[r as usize - 1].push(entry);
    }

    fn note_label(&mut self, r: u32, before: Before) {
        let entry = before.first_waiting.expect("an entry was waiting");
        self.labelled[r as usize - 1].push(entry);
    }

    fn note_receive(&mut self, r: u32, before: Before) {
        let recorder = self.hall.recorder(r);
        let overtaken = self.highest_sent(recorder) > before.high;
        if !begins(&before.order, &recorder.order) && !overtaken {
            self.counts.shifted += 1;
        }
        if !before.collecting || recorder.phase == Phase::Collect {
            return;
        }
        let number = recorder.current;
        let unequal = u64::from(self.met_unequal_orders(recorder));
        let primary = recorder.high == number;
        let late = self.hall.recorders.iter().any(|other| other.high > number);
        self.note_votes(number, primary);
        if primary {
            self.counts.primary_completed += 1;
            self.counts.primary_unequal += unequal;
            self.counts.completed_late += u64::from(late);
        } else {
            self.counts.other_completed += 1;
            self.counts.other_unequal += unequal;
        }
    }

    /// Notes a view that was completed, primary or not, where the built-in row
    /// says otherwise.
    fn note_votes(&mut self, number: u32, primary: bool) {
        let index = self.hall.view_index(number).expect("a view was completed");
        let members = self.hall.views[index].members;
        if is_quorum(&built_in_votes(self.hall.n), members) == primary {
            return;
        }
        let counts = &mut self.counts;
        *(if primary {
            &mut counts.primary_by_row
        } else {
            &mut counts.other_by_row
        }) += 1;
        counts.without_1 += u64::from(members & recorder_bit(1) == 0);
        counts.no_votes_of_1 += u64::from(self.hall.votes[0] == 0);
    }

    /// The highest primary in the summaries sent in a recorder's view.
    fn highest_sent(&self, recorder: &Recorder) -> u32 {
        let index = self.hall.view_index(recorder.current);
        let view = &self.hall.views[index.expect("a message was received")];
        let summaries = view.seats.iter().filter_map(|seat| seat.summary.as_ref());
        summaries.map(|summary| summary.high).max().unwrap_or(0)
    }

    /// Whether the sources that a recorder heard, those with the greatest highest
    /// primary, have orders of unequal length.
    fn met_unequal_orders(&self, recorder: &Recorder) -> bool {
        let index = self.hall.view_index(recorder.current);
        let view = &self.hall.views[index.expect("a view was completed")];
        let sources = heard_sources(view, recorder.heard);
        let longest = longest_order(view.number, &sources);
        let shorter = |source: &Source| source.length() < longest.length();
        let mut highest = sources.iter().filter(|s| s.high() == longest.high());
        highest.any(shorter)
    }

    fn note_delivery(&mut self, r: u32, before: Before, answer: Answer) {
        let index = before.at_report.expect("a label stood at the report mark");
        let entry = self.hall.entries[index];
        let (sender, value) = (entry.sender, entry.value);
        assert_eq!(answer, Answer::From { sender, value });
        self.delivered[r as usize - 1].push(index);
        self.counts.delivered += 1;
        let labelled_in = self.hall.label_of(index).view;
        if labelled_in < self.hall.recorder(r).current {
            self.counts.delivered_later += 1;
        }
        if labelled_in >= 1 << 24 {
            self.counts.delivered_far += 1;
        }
    }

    /// Looks at the whole hall.
    fn look(&mut self) -> Result<(), Broken> {
        assert!(self.hall.check());
        self.check_labelled()?;
        self.check_senders()?;
        self.check_delivered()?;
        self.check_confirmed()?;
        self.check_orders()
    }

    /// The k-th accepted label at a sender labels its k-th entry.
    fn check_labelled(&self) -> Result<(), Broken> {
        let mut senders = self.labelled.iter().zip(&self.submitted);
        let well = senders.all(|(labelled, submitted)| begins(labelled, submitted));
        hold(well, LABELLED)
    }

    /// Each delivered list has each sender's first entries, in order.
    fn check_senders(&self) -> Result<(), Broken> {
        for r in 1..=self.hall.n {
            for (sender, submitted) in (1..).zip(&self.submitted) {
                hold(begins(&self.delivered_from(r, sender), submitted), SENDERS)?;
            }
        }
        Ok(())
    }

    /// The entries of a sender that R has delivered.
    fn delivered_from(&self, r: u32, sender: u32) -> Vec<usize> {
        let is_from = |&entry: &usize| self.hall.entries[entry].sender == sender;
        let delivered = self.delivered[place_of(r)].iter().copied();
        delivered.filter(is_from).collect()
    }

    /// All that was submitted at a member of the greatest view has been delivered
    /// at every member, in order.
    fn check_complete(&self) -> Result<(), Broken> {
        for r in self.members() {
            for sender in self.members() {
                let complete = self.delivered_from(r, sender) == self.submitted[place_of(sender)];
                hold(complete, SETTLE_COMPLETE)?;
            }
        }
        Ok(())
    }

    /// No call of a settle is allowed.
    fn check_none_left(&self) -> Result<(), Broken> {
        let view = self.greatest_view();
        let mut calls = turn_actions(view.number, view.members);
        let mut hall = self.hall.clone();
        let none_left = calls.all(|call| is_refused(hall.step_with(self.choice, call)));
        hold(none_left, SETTLE_ENDS)
    }

    /// Of two delivered lists one begins the other.
    fn check_delivered(&self) -> Result<(), Broken> {
        for one in &self.delivered {
            for other in &self.delivered {
                hold(begins(one, other) || begins(other, one), DELIVERED)?;
            }
        }
        Ok(())
    }

    /// Of two recorders, the confirmed list of the one with the lower or equal
    /// highest primary begins the other's order.
    fn check_confirmed(&mut self) -> Result<(), Broken> {
        for one in &self.hall.recorders {
            let confirmed = one.order.get(..one.confirm as usize - 1);
            // The order has all confirmed places.
            let confirmed = confirmed.ok_or(CONFIRMED)?;
            for other in &self.hall.recorders {
                if one.high <= other.high {
                    hold(begins(confirmed, &other.order), CONFIRMED)?;
                }
                if one.high < other.high && !confirmed.is_empty() {
                    self.counts.unequal_pairs += 1;
                }
            }
        }
        Ok(())
    }

    /// Of two recorders with the same highest primary, the one's order begins
    /// the other's. So orders of equal length are equal there.
    fn check_orders(&self) -> Result<(), Broken> {
        for one in &self.hall.recorders {
            for other in &self.hall.recorders {
                let (one_order, other_order) = (&one.order, &other.order);
                let beginning = begins(one_order, other_order) || begins(other_order, one_order);
                hold(one.high != other.high || beginning, SAME_PRIMARY)?;
            }
        }
        Ok(())
    }
}

/// What stood at a recorder before an action.
#[derive(Default)]
struct Before {
    first_waiting: Option<usize>,
    at_report: Option<usize>,
    collecting: bool,
    order: Vec<usize>,
    high: u32,
}

/// Whether a list equals the first places of another.
fn begins(list: &[usize], other: &[usize]) -> bool {
    other.starts_with(list)
}

fn is_refused(answer: Answer) -> bool {
    matches!(answer, Answer::Refused(_))
}

/// In a run no list is ever full, and what is sent or delivered is known.
fn judge_refusal(k: u32, number: u32) -> Result<(), Broken> {
    hold(number != refusal::FULL, FULL)?;
    let names_entry = matches!(k, actions::SEND_ENTRY | actions::DELIVER);
    hold(!(names_entry && number == refusal::NOT_READY), NOT_KNOWN)
}

/// One run, with settles or without; now and then a refused call is shown to
/// change nothing.
fn random_run(
    choice: Choice,
    rows: Rows,
    settling: Option<Settling>,
    seed: u64,
) -> Result<Counts, Broken> {
    let mut random = Random(seed);
    // Rows have numbers of their own, so that a run is the same with any. So have
    // the places of settles.
    let mut of_rows = Random(!seed);
    let mut of_settles = Random(seed << 32);
    let between_settles = pick(&mut of_settles, &[60, 400, 2_000]);
    let n = random.between(1, 8);
    let founders = random.below(1 << n);
    let style = Style::random(&mut random, n);
    let mut run = Run::opened(choice, n, founders, rows.row(&mut of_rows, n));
    for place in 0..style.steps {
        if let Some(settling) = settling.filter(|_| of_settles.one_in(between_settles)) {
            run.settle(settling)?;
            run.look()?;
        }
        let kept = (place % BETWEEN_LOOKS == 0).then(|| run.hall.clone());
        let action = style.action(&mut random, &run.hall, place);
        let answer = run.step(action)?;
        if let (Some(kept), Answer::Refused(_)) = (kept, answer) {
            assert_eq!(kept, run.hall);
        }
        if place % BETWEEN_LOOKS == 0 {
            run.look()?;
            if rows == Rows::Changing {
                run.hall.votes = rows.row(&mut of_rows, n);
            }
        }
    }
    run.look()?;
    Ok(run.counts)
}

fn add(sum: &mut Counts, counts: Counts) {
    sum.steps += counts.steps;
    sum.accepted += counts.accepted;
    sum.delivered += counts.delivered;
    sum.delivered_later += counts.delivered_later;
    sum.delivered_far += counts.delivered_far;
    sum.primary_completed += counts.primary_completed;
    sum.other_completed += counts.other_completed;
    sum.primary_unequal += counts.primary_unequal;
    sum.other_unequal += counts.other_unequal;
    sum.shifted += counts.shifted;
    sum.completed_late += counts.completed_late;
    sum.primary_by_row += counts.primary_by_row;
    sum.other_by_row += counts.other_by_row;
    sum.without_1 += counts.without_1;
    sum.no_votes_of_1 += counts.no_votes_of_1;
    sum.unequal_pairs += counts.unequal_pairs;
    sum.settled += counts.settled;
    sum.settled_before += counts.settled_before;
    sum.not_settled += counts.not_settled;
    sum.to_enter += counts.to_enter;
    sum.to_send += counts.to_send;
    sum.to_collect += counts.to_collect;
    sum.settled_apart += counts.settled_apart;
    sum.settled_later += counts.settled_later;
    sum.longest_settle = sum.longest_settle.max(counts.longest_settle);
}

/// What runs met; a promise that is broken is told with its seed.
fn met_by(runs: u64, run: impl Fn(u64) -> Result<Counts, Broken>) -> Counts {
    let mut sum = Counts::default();
    for seed in 1..=runs {
        match run(seed) {
            Ok(counts) => add(&mut sum, counts),
            Err(broken) => panic!("seed {seed}: {broken}"),
        }
    }
    println!("{sum:?}");
    sum
}

/// Runs with a choice and rows.
fn random_runs(choice: Choice, rows: Rows, runs: u64) -> Counts {
    let sum = met_by(runs, |seed| random_run(choice, rows, None, seed));
    // The runs are worth something only if they meet the hard cases; so many
    // of them in 40 runs.
    let met = |count: u64, least: u64| assert!(40 * count >= runs * least);
    met(sum.steps, 125_000);
    met(sum.accepted, 30_000);
    met(sum.delivered, 4_000);
    met(sum.delivered_later, 2_400);
    met(sum.delivered_far, 1_000);
    met(sum.primary_completed, 400);
    met(sum.other_completed, 100);
    met(sum.primary_unequal, 100);
    met(sum.other_unequal, 12);
    met(sum.completed_late, 6);
    met(sum.unequal_pairs, 3_000);
    sum
}

#[test]
fn random_runs_keep_the_common_order() {
    let sum = random_runs(longest_order, Rows::BuiltIn, RUNS);
    assert_eq!(sum.shifted, 0);
    assert_eq!((sum.primary_by_row, sum.other_by_row), (0, 0));
}

#[test]
fn so_they_do_with_the_greatest_number() {
    let sum = random_runs(greatest_number, Rows::BuiltIn, OTHER_RUNS);
    assert!(sum.shifted > 0);
}

#[test]
fn so_they_do_with_a_choice_by_view() {
    random_runs(by_view, Rows::BuiltIn, OTHER_RUNS);
}

#[test]
fn so_they_do_with_any_row_that_passes() {
    let sum = random_runs(longest_order, Rows::Given, ROW_RUNS);
    assert_eq!(sum.shifted, 0);
    assert!(sum.primary_by_row >= ROW_RUNS / 2);
    assert!(sum.other_by_row >= ROW_RUNS / 2);
    assert!(sum.without_1 >= ROW_RUNS / 4);
    assert!(sum.no_votes_of_1 >= ROW_RUNS / 4);
}

#[test]
fn so_they_do_with_any_row_and_a_choice_by_view() {
    random_runs(by_view, Rows::Given, OTHER_RUNS);
}

/// Runs with settles at random places.
fn settling_runs(choice: Choice, rows: Rows) -> Counts {
    let settling = Some(&Hall::settle as Settling);
    let sum = met_by(SETTLE_RUNS, |seed| random_run(choice, rows, settling, seed));
    // So many of each in 40 runs.
    let met = |count: u64, least: u64| assert!(40 * count >= SETTLE_RUNS * least);
    met(sum.settled, 160);
    met(sum.settled_before, 160);
    met(sum.not_settled, 160);
    met(sum.to_enter, 80);
    met(sum.to_send, 60);
    met(sum.to_collect, 60);
    met(sum.settled_apart, 80);
    met(sum.settled_later, 1_600);
    met(sum.delivered_far, 1_000);
    assert!(sum.longest_settle >= 2_000);
    sum
}

#[test]
fn random_runs_settle() {
    for rows in [Rows::BuiltIn, Rows::Given] {
        let sum = settling_runs(longest_order, rows);
        assert_eq!(sum.shifted, 0);
    }
    settling_runs(by_view, Rows::Given);
}

/// The promises that wrong runs break.
fn broken_by(runs: u64, run: impl Fn(u64) -> Result<Counts, Broken>) -> BTreeMap<Broken, u64> {
    let mut broken: BTreeMap<Broken, u64> = BTreeMap::new();
    for seed in 1..=runs {
        if let Err(what) = run(seed) {
            *broken.entry(what).or_default() += 1;
        }
    }
    println!("{broken:?}");
    broken
}

/// With a wrong choice the same runs break the promise.
#[test]
fn they_do_not_with_the_length_first() {
    let run = |seed| random_run(length_first, Rows::BuiltIn, None, seed);
    let broken = broken_by(WRONG_RUNS, run);
    assert!(broken.contains_key(DELIVERED));
    assert!(broken.contains_key(CONFIRMED));
}

/// So they do if the hall does not keep its row.
#[test]
fn they_do_not_with_a_row_that_changes() {
    let run = |seed| random_run(longest_order, Rows::Changing, None, seed);
    let broken = broken_by(WRONG_RUNS, run);
    assert!(broken.contains_key(DELIVERED));
    assert!(broken.contains_key(CONFIRMED));
}

/// The promises that runs with a wrong settle break.
fn broken_by_settling(settling: Settling) -> BTreeMap<Broken, u64> {
    let run = |seed| random_run(longest_order, Rows::Given, Some(settling), seed);
    broken_by(WRONG_SETTLE_RUNS, run)
}

fn accepted(hall: &mut Hall, [k, r, a, b]: [u32; 4]) -> bool {
    !is_refused(hall.step(k, r, a, b))
}

/// Takes the first call in the greatest view, but for those of a kind, until none
/// is left, and is never refused.
fn settle_without(left_out: u32, hall: &mut Hall) -> Vec<[u32; 4]> {
    let view = hall.greatest_view().expect("a run has view 1");
    let calls = turn_actions(view.number, view.members);
    let calls: Vec<[u32; 4]> = calls.filter(|&[kind, ..]| kind != left_out).collect();
    let mut steps = Vec::new();
    while let Some(&call) = calls.iter().find(|&&call| accepted(hall, call)) {
        steps.push(call);
    }
    steps
}

/// Each kind is needed.
#[test]
fn they_do_not_settle_without_a_kind() {
    for kind in KINDS {
        let broken = broken_by_settling(&|hall| {
            let settled = hall.clone().settle();
            settled.map(|_| settle_without(kind, hall))
        });
        assert!(broken.contains_key(SETTLE_COMPLETE), "kind {kind}");
    }
}

/// So is the last step.
#[test]
fn they_do_not_settle_with_a_step_less() {
    let broken = broken_by_settling(&|hall| {
        let mut steps = hall.clone().settle()?;
        steps.pop();
        assert!(steps.iter().all(|&call| accepted(hall, call)));
        Ok(steps)
    });
    assert!(broken.contains_key(SETTLE_COMPLETE));
}

/// Steps that were not taken, or one that is not told.
#[test]
fn they_do_not_settle_with_other_steps() {
    let broken = broken_by_settling(&|hall| hall.clone().settle());
    assert!(broken.contains_key(SETTLE_RUN));
    let broken = broken_by_settling(&|hall| {
        let mut steps = hall.settle()?;
        steps.pop();
        Ok(steps)
    });
    assert!(broken.contains_key(SETTLE_RUN));
}

#[test]
fn they_do_not_settle_without_a_quorum() {
    let broken = broken_by_settling(&|hall| Ok(settle_without(0, hall)));
    assert!(broken.contains_key(SETTLE_REFUSED));
}
