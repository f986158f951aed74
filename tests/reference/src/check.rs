//! Whether all fields of a hall are in range, and no more than that.
//!
//! Left open on purpose: halls without a formed view, marks past a queue's or
//! an order's end, repeated labels in a list, labels or highest primaries of
//! views that are not formed, and everything else that only the halls reached
//! from an opening have.

use crate::hall::{
    all_recorders, holds_recorder, judge_votes, lies_within, Entry, Hall, Message, Queued,
    Recorder, Seat, Summary, View, LAST_ORDER_MARK, LAST_QUEUE_MARK, LAST_SEQ, MOST_ENTRIES,
    MOST_LABELS, MOST_PENDING, MOST_QUEUED, MOST_RECORDERS, MOST_VIEWS,
};

fn is_queue_mark(mark: u32) -> bool {
    (1..=LAST_QUEUE_MARK).contains(&mark)
}

fn is_order_mark(mark: u32) -> bool {
    (1..=LAST_ORDER_MARK).contains(&mark)
}

impl Hall {
    /// Whether all fields are in their ranges and keep the rules between them.
    pub fn check(&self) -> bool {
        (1..=MOST_RECORDERS).contains(&self.n)
            && judge_votes(self.n, &self.votes).is_ok()
            && self.check_entries()
            && self.check_views()
            && self.check_recorders()
    }

    fn check_entries(&self) -> bool {
        self.entries.len() <= MOST_ENTRIES
            && self.entries.iter().all(|entry| self.check_entry(entry))
            && self.labels_differ()
    }

    fn check_entry(&self, entry: &Entry) -> bool {
        let label_fits = entry.label.is_none_or(|label| {
            label.view != 0 && (1..=LAST_SEQ).contains(&label.seq) && label.sender == entry.sender
        });
        (1..=self.n).contains(&entry.sender) && label_fits
    }

    fn labels_differ(&self) -> bool {
        let mut labels: Vec<_> = self.entries.iter().filter_map(|e| e.label).collect();
        labels.sort();
        labels.windows(2).all(|pair| pair[0] != pair[1])
    }

    /// Whether a number names a labelled entry.
    fn is_labelled(&self, entry: usize) -> bool {
        self.entries.get(entry).is_some_and(|e| e.label.is_some())
    }

    /// Whether a list has at most 64 places, all of labelled entries.
    fn check_labels(&self, list: &[usize]) -> bool {
        list.len() <= MOST_LABELS && list.iter().all(|&entry| self.is_labelled(entry))
    }

    /// Whether a set names only labelled entries.
    fn check_entry_set(&self, set: u64) -> bool {
        let mut rest = set;
        while rest != 0 {
            if !self.is_labelled(rest.trailing_zeros() as usize) {
                return false;
            }
            rest &= rest - 1;
        }
        true
    }

    fn check_views(&self) -> bool {
        self.views.len() <= MOST_VIEWS
            && self
                .views
                .windows(2)
                .all(|pair| pair[0].number < pair[1].number)
            && self.views.iter().all(|view| self.check_view(view))
    }

    fn check_view(&self, view: &View) -> bool {
        view.number != 0
            && view.members != 0
            && lies_within(view.members, all_recorders(self.n))
            && view.seats.len() == self.n as usize
            && (1..=self.n).all(|recorder| self.check_seat(view, recorder))
            && view.queue.len() <= MOST_QUEUED
            && view
                .queue
                .iter()
                .all(|queued| self.check_queued(view, queued))
    }

    fn check_seat(&self, view: &View, recorder: u32) -> bool {
        let Seat {
            pending,
            receive,
            safe,
            summary,
        } = view.seat(recorder);
        let source = recorder;
        is_queue_mark(*receive)
            && is_queue_mark(*safe)
            && (view.has(recorder) || (pending.is_empty() && summary.is_none()))
            && summary.as_ref().is_none_or(|sent| self.check_summary(sent))
            && pending.len() <= MOST_PENDING
            && pending
                .iter()
                .all(|&message| self.check_queued(view, &Queued { source, message }))
    }

    fn check_summary(&self, summary: &Summary) -> bool {
        self.check_entry_set(summary.known)
            && self.check_labels(&summary.order)
            && is_order_mark(summary.confirm)
    }

    /// Whether a member is the source, of a labelled entry or a sent summary.
    fn check_queued(&self, view: &View, queued: &Queued) -> bool {
        (1..=self.n).contains(&queued.source)
            && view.has(queued.source)
            && match queued.message {
                Message::Entry(entry) => self.is_labelled(entry),
                Message::Summary => view.seat(queued.source).summary.is_some(),
            }
    }

    fn check_recorders(&self) -> bool {
        self.recorders.len() == self.n as usize
            && (1..=self.n).all(|recorder| self.check_recorder(recorder))
    }

    fn check_recorder(&self, number: u32) -> bool {
        let recorder = self.recorder(number);
        self.check_place_in_view(number, recorder)
            && self.check_entry_set(recorder.known)
            && self.check_entry_set(recorder.safe_labels)
            && (1..=LAST_SEQ + 1).contains(&recorder.next_seq)
            && self.check_labels(&recorder.buffer)
            && self.check_labels(&recorder.order)
            && is_order_mark(recorder.confirm)
            && is_order_mark(recorder.report)
    }

    /// Current view, sources heard and sources safe.
    fn check_place_in_view(&self, number: u32, recorder: &Recorder) -> bool {
        if recorder.current == 0 {
            return recorder.heard == 0 && recorder.safe_sources == 0;
        }
        let Some(index) = self.view_index(recorder.current) else {
            return false;
        };
        let view = &self.views[index];
        view.has(number)
            && lies_within(recorder.heard, view.members)
            && lies_within(recorder.safe_sources, view.members)
            && (1..=self.n).all(|source| {
                !holds_recorder(recorder.heard, source) || view.seat(source).summary.is_some()
            })
    }
}
