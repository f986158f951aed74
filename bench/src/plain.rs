//! The check in plain Rust, on the bytes as they are: what `stored::read` of
//! the second implementation finds out, without making a hall.

use reference::stored::LENGTH;

const ENTRIES: usize = 163;
const RECORDERS: usize = 803;
const PLACES: usize = 3_091;
const QUEUES: usize = 55_059;
const VOTES: usize = 59_699;

/// What the lists, sets and places are held to.
struct Facts<'a> {
    bytes: &'a [u8],
    n: usize,
    formed: usize,
    /// Which entry numbers, from 1, have a label.
    labelled: [bool; 256],
}

fn word(bytes: &[u8], at: usize) -> u32 {
    u32::from_le_bytes([bytes[at], bytes[at + 1], bytes[at + 2], bytes[at + 3]])
}

fn blank(bytes: &[u8]) -> bool {
    static ZEROS: [u8; LENGTH] = [0; LENGTH];
    bytes == &ZEROS[..bytes.len()]
}

fn entries_fit(bytes: &[u8], n: usize, count: usize) -> bool {
    let mut labels: Vec<(u32, u8, u8)> = Vec::with_capacity(count);
    for entry in bytes[ENTRIES..ENTRIES + 10 * count].chunks_exact(10) {
        let (sender, view, seq) = (entry[0], word(entry, 5), entry[9]);
        let in_range = (1..=n).contains(&sender.into()) && seq <= 64;
        if !in_range || (view == 0) != (seq == 0) {
            return false;
        }
        if view != 0 {
            labels.push((view, seq, sender));
        }
    }
    labels.sort_unstable();
    labels.windows(2).all(|pair| pair[0] != pair[1])
        && blank(&bytes[ENTRIES + 10 * count..RECORDERS])
}

fn views_fit(bytes: &[u8], n: usize, formed: usize) -> bool {
    let mut last = 0;
    for view in bytes[2..2 + 5 * formed].chunks_exact(5) {
        let number = word(view, 0);
        if number <= last || view[4] == 0 || usize::from(view[4]) >> n != 0 {
            return false;
        }
        last = number;
    }
    blank(&bytes[2 + 5 * formed..162])
}

/// Whether each vote is at most 1,000, and 0 above N, and one is not 0.
fn votes_fit(bytes: &[u8], n: usize) -> bool {
    let within = &bytes[VOTES..VOTES + 4 * n];
    let in_range = |vote: &[u8]| word(vote, 0) <= 1_000;
    within.chunks_exact(4).all(in_range) && !blank(within) && blank(&bytes[VOTES + 4 * n..])
}

impl Facts<'_> {
    /// A list of entry numbers with a capacity of 64.
    fn list_fits(&self, list: &[u8]) -> bool {
        let length = usize::from(list[0]);
        length <= 64
            && list[1..=length]
                .iter()
                .all(|&k| self.labelled[usize::from(k)])
            && blank(&list[1 + length..])
    }

    fn set_fits(&self, set: &[u8]) -> bool {
        let fits = |(k, &byte): (usize, &u8)| byte == 0 || byte == 1 && self.labelled[k + 1];
        blank(set) || set.iter().enumerate().all(fits)
    }

    fn members(&self, i: usize) -> u8 {
        self.bytes[6 + 5 * i]
    }

    fn place(&self, p: usize, i: usize) -> &[u8] {
        let at = PLACES + 6_496 * (p - 1) + 203 * i;
        &self.bytes[at..at + 203]
    }

    fn sent(&self, p: usize, i: usize) -> bool {
        self.place(p, i)[68] == 1
    }

    /// A message: a labelled entry, or a summary that was sent.
    fn message_fits(&self, number: u8, sent: bool) -> bool {
        match number {
            0 => sent,
            k => self.labelled[usize::from(k)],
        }
    }

    fn summary_fits(&self, summary: &[u8]) -> bool {
        self.set_fits(&summary[..64]) && self.list_fits(&summary[64..129]) && summary[129] <= 64
    }

    fn place_fits(&self, p: usize, i: usize) -> bool {
        let place = self.place(p, i);
        let member = self.members(i) >> (p - 1) & 1 != 0;
        let pending = usize::from(place[0]);
        if place[66] > 72 || place[67] > 72 || place[68] > 1 {
            return false;
        }
        if !member {
            return pending == 0 && place[68] == 0 && blank(&place[1..66]) && blank(&place[69..]);
        }
        let sent = place[68] == 1;
        let pending_fits = pending <= 65
            && place[1..=pending]
                .iter()
                .all(|&k| self.message_fits(k, sent))
            && blank(&place[1 + pending..66]);
        pending_fits
            && if sent {
                self.summary_fits(&place[69..])
            } else {
                blank(&place[69..])
            }
    }

    fn queue_fits(&self, i: usize) -> bool {
        let queue = &self.bytes[QUEUES + 145 * i..QUEUES + 145 * (i + 1)];
        let length = usize::from(queue[0]);
        let message_fits = |message: &[u8]| {
            let source = usize::from(message[0]);
            (1..=self.n).contains(&source)
                && self.members(i) >> (source - 1) & 1 != 0
                && self.message_fits(message[1], self.sent(source, i))
        };
        length <= 72
            && queue[1..1 + 2 * length].chunks_exact(2).all(message_fits)
            && blank(&queue[1 + 2 * length..])
    }

    /// Current view, sources heard and sources safe.
    fn standing_fits(&self, r: usize, recorder: &[u8]) -> bool {
        let (heard, safe) = (&recorder[270..278], &recorder[278..286]);
        let current = word(recorder, 0);
        if current == 0 {
            return blank(heard) && blank(safe);
        }
        let Some(i) = (0..self.formed).find(|&i| word(self.bytes, 2 + 5 * i) == current) else {
            return false;
        };
        let member = |k: usize| self.members(i) >> (k - 1) & 1 != 0;
        let heard_fits =
            |k: usize| heard[k - 1] == 0 || heard[k - 1] == 1 && member(k) && self.sent(k, i);
        let safe_fits = |k: usize| safe[k - 1] == 0 || safe[k - 1] == 1 && member(k);
        member(r) && (1..=8).all(|k| heard_fits(k) && safe_fits(k))
    }

    fn recorder_fits(&self, r: usize) -> bool {
        let at = RECORDERS + 286 * (r - 1);
        let recorder = &self.bytes[at..at + 286];
        recorder[4] <= 2
            && recorder[5] <= 64
            && self.list_fits(&recorder[6..71])
            && self.list_fits(&recorder[71..136])
            && recorder[136] <= 64
            && recorder[137] <= 64
            && self.set_fits(&recorder[142..206])
            && self.set_fits(&recorder[206..270])
            && self.standing_fits(r, recorder)
    }

    /// The places of recorder p, and blanks past the formed views.
    fn row_fits(&self, p: usize) -> bool {
        let rest = PLACES + 6_496 * (p - 1) + 203 * self.formed;
        (0..self.formed).all(|i| self.place_fits(p, i))
            && blank(&self.bytes[rest..PLACES + 6_496 * p])
    }
}

/// Whether a slice begins with a hall's stored form.
pub fn is_hall(slice: &[u8]) -> bool {
    let Some(bytes) = slice.get(..LENGTH) else {
        return false;
    };
    let (n, formed, count) = (
        usize::from(bytes[0]),
        usize::from(bytes[1]),
        usize::from(bytes[162]),
    );
    if !(1..=8).contains(&n) || formed > 32 || count > 64 {
        return false;
    }
    if !views_fit(bytes, n, formed) || !entries_fit(bytes, n, count) || !votes_fit(bytes, n) {
        return false;
    }
    let mut labelled = [false; 256];
    for e in 1..=count {
        labelled[e] = bytes[ENTRIES + 10 * (e - 1) + 9] != 0;
    }
    let facts = Facts {
        bytes,
        n,
        formed,
        labelled,
    };
    (1..=n).all(|r| facts.recorder_fits(r))
        && blank(&bytes[RECORDERS + 286 * n..PLACES])
        && (1..=n).all(|p| facts.row_fits(p))
        && blank(&bytes[PLACES + 6_496 * n..QUEUES])
        && (0..formed).all(|i| facts.queue_fits(i))
        && blank(&bytes[QUEUES + 145 * formed..VOTES])
}

/// FNV-1a over 64 bits.
pub fn fnv1a(bytes: &[u8]) -> u64 {
    bytes.iter().fold(0xcbf2_9ce4_8422_2325, |hash, &byte| {
        (hash ^ u64::from(byte)).wrapping_mul(0x0000_0100_0000_01b3)
    })
}
