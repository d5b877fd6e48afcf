//! The list in transit by its rule, not by the bench's own walk; and the kinds of lists that a test has met.

use crate::check::Broken;
use crate::kinds::Kinds;
use crate::layout::{bit, members};
use crate::{Bench, Process};

/// A message in transit, with its fields in the order by which the list runs. The round of a decision is 0.
#[derive(Clone, Copy, PartialEq, Eq, PartialOrd, Ord, Debug)]
pub struct InTransit {
    pub r: u8,
    pub a: u8,
    pub b: u8,
}

/// What the call gives, whole: how many messages or its refusal's number, and the lent slice after it.
pub type Given = (Result<usize, u32>, Vec<u8>);

/// No byte of a list has this value: where it stands, nothing was written.
const UNWRITTEN: u8 = 0xa5;

/// The messages that a state holds between its n processes up to round t+1, taken as they lie and then sorted.
pub fn held(bench: &Bench) -> Vec<InTransit> {
    let mut held = Vec::new();
    for (i, &receivers) in bench.in_transit.iter().enumerate() {
        let (a, r) = (i / Bench::SLOTS, i % Bench::SLOTS);
        if a < bench.n as usize && r <= bench.t as usize + 1 {
            held.extend(members(receivers).map(|b| InTransit { r: r as u8, a: a as u8 + 1, b: b as u8 + 1 }));
        }
    }
    held.sort();
    held
}

/// How much a state holds in all, also of no process of the bench or of no round.
pub fn bits(bench: &Bench) -> usize {
    bench.in_transit.iter().map(|set| set.count_ones() as usize).sum()
}

/// What the call must give with this slice, where exactly `messages`, in order, are in transit. Of the bench it asks
/// only whether it is damaged.
pub fn by_rule(bench: &Bench, messages: &[InTransit], before: &[u8]) -> Given {
    let mut out = before.to_vec();
    if !bench.is_sound() {
        return (Err(2), out);
    }
    if before.len() < 3 * messages.len() {
        return (Err(10), out);
    }
    for (place, message) in out.chunks_mut(3).zip(messages) {
        place.copy_from_slice(&[message.a, message.b, message.r]);
    }
    (Ok(messages.len()), out)
}

/// Nothing, or the first place where what was given is not by the rule.
pub fn check_given(given: &Given, rule: &Given) -> Result<(), Broken> {
    if given.0 != rule.0 {
        return Err(format!("list: {:?}, by the rule {:?}", given.0, rule.0));
    }
    match (0..rule.1.len()).find(|&i| given.1[i] != rule.1[i]) {
        Some(i) => Err(format!("list: byte {i} is {}, by the rule {}", given.1[i], rule.1[i])),
        None => Ok(()),
    }
}

/// Lengths of a slice for so many messages: with bytes left over, just enough, a byte short, with room for some, none.
pub fn lengths(messages: usize) -> [usize; 5] {
    let whole = 3 * messages;
    [whole + 4, whole, whole.saturating_sub(1), whole / 2, 0]
}

/// The bench's own call against the rule, where exactly `messages`, in order, are in transit: in a slice with bytes
/// left over, and in one of the other lengths by turns.
pub fn check_list(
    bench: &Bench,
    messages: &[InTransit],
    turn: usize,
    met: &mut Listed,
) -> Result<(), Broken> {
    let [longest, others @ ..] = lengths(messages.len());
    for length in [longest, others[turn % others.len()]] {
        let before = vec![UNWRITTEN; length];
        let mut out = before.clone();
        let answer = bench.list_in_transit(&mut out).map_err(|refusal| refusal.number() as u32);
        check_given(&(answer, out), &by_rule(bench, messages, &before))?;
        met.count(&Call { bench, messages, length, answer });
    }
    Ok(())
}

/// One call: its state, the messages in transit in order, the length of its slice, and what it answered.
pub struct Call<'a> {
    pub bench: &'a Bench,
    pub messages: &'a [InTransit],
    pub length: usize,
    pub answer: Result<usize, u32>,
}

/// How often each of `KINDS` was met.
#[derive(Clone, Copy, PartialEq, Eq, Debug, Default)]
pub struct Listed(Kinds<{ KINDS.len() }>);

/// No schedule meets such a list, but other states do.
pub const OTHER: u8 = Bench::MAX as u8 + 1;

type Meets = fn(&Call) -> bool;

/// What a call can meet, and from which n on a schedule can. Another order shows in those of two messages.
const KINDS: [(&str, u8, Meets); 26] = [
    ("none", 1, |x| x.answer == Ok(0)),
    ("estimate after a decision", 2, |x| x.next_to(|p, q| p.r == 0 && q.r > 0)),
    ("estimate after one of an earlier round", 2, |x| x.next_to(|p, q| p.r > 0 && p.r < q.r)),
    ("estimate of a lower sender after a decision", 3, |x| {
        x.next_to(|p, q| p.r == 0 && q.r > 0 && p.a > q.a)
    }),
    ("estimate of a lower sender after one of an earlier round", 3, |x| {
        x.next_to(|p, q| p.r > 0 && p.r < q.r && p.a > q.a)
    }),
    ("crossed decisions", 2, |x| x.next_to(|p, q| q.r == 0 && crossed(p, q))),
    ("crossed estimates", 2, |x| x.next_to(|p, q| q.r > 0 && crossed(p, q))),
    ("decision to two", 3, |x| x.next_to(|p, q| q.r == 0 && p.a == q.a)),
    ("estimate to two", 3, |x| x.next_to(|p, q| p.r == q.r && q.r > 0 && p.a == q.a)),
    ("receivers in both bytes of a set", 9, |x| {
        x.next_to(|p, q| (p.r, p.a) == (q.r, q.a) && p.b <= 8 && q.b > 8)
    }),
    ("of the last round", 2, |x| x.some(|m, x| m.r == x.bench.t + 1)),
    ("of a crashed sender", 2, |x| x.some(|m, x| x.bench.has_crashed(m.a as usize - 1))),
    ("to a crashed receiver", 2, |x| x.some(|m, x| x.bench.has_crashed(m.b as usize - 1))),
    ("estimate of a decided sender", 2, |x| x.some(|m, x| m.r > 0 && x.process(m.a).has_decided())),
    ("to a decided receiver", 2, |x| x.some(|m, x| x.process(m.b).has_decided())),
    ("to one not started", 2, |x| x.some(|m, x| x.process(m.b).round == 0)),
    ("of a round that its receiver has left", 2, |x| x.some(|m, x| m.r > 0 && m.r < x.process(m.b).round)),
    ("of a suspected sender", 2, |x| x.some(|m, x| x.process(m.b).suspected & bit(m.a as usize - 1) != 0)),
    ("to the sender itself", OTHER, |x| x.some(|m, _| m.a == m.b)),
    ("besides bits of no process or round", OTHER, |x| x.answer.is_ok() && bits(x.bench) > x.messages.len()),
    ("every message of 16", OTHER, |x| x.answer == Ok(16 * 16 * 17)),
    ("just enough room", 2, |x| x.some(|_, x| x.length == 3 * x.messages.len())),
    ("a byte short", 2, |x| x.answer == Err(10) && x.length + 1 == 3 * x.messages.len()),
    ("room for some", 2, |x| x.answer == Err(10) && x.length >= 3),
    ("damaged with room", OTHER, |x| x.answer == Err(2) && x.length >= 3 * x.messages.len()),
    ("damaged without room", OTHER, |x| x.answer == Err(2) && x.length < 3 * x.messages.len()),
];

/// Of two messages of one round, the later sender's goes to the lower receiver.
fn crossed(p: InTransit, q: InTransit) -> bool {
    p.r == q.r && p.a < q.a && p.b > q.b
}

impl Call<'_> {
    /// Two messages that stand next to each other in the list.
    fn next_to(&self, meets: fn(InTransit, InTransit) -> bool) -> bool {
        self.answer.is_ok() && self.messages.windows(2).any(|pair| meets(pair[0], pair[1]))
    }

    /// A message in the list.
    fn some(&self, meets: fn(InTransit, &Call) -> bool) -> bool {
        self.answer.is_ok() && self.messages.iter().any(|&message| meets(message, self))
    }

    fn process(&self, number: u8) -> &Process {
        &self.bench.processes[number as usize - 1]
    }
}

impl Listed {
    pub fn count(&mut self, call: &Call) {
        self.0.count(KINDS.map(|(_, _, meets)| meets(call)));
    }

    pub fn add(&mut self, other: &Listed) {
        self.0.add(&other.0);
    }

    /// What schedules of up to n processes can meet, or for `OTHER` other states too, and was not met.
    pub fn missing(&self, n: u8) -> Vec<&'static str> {
        self.0.missing().filter(|&i| KINDS[i].1 <= n).map(|i| KINDS[i].0).collect()
    }

    pub fn report(&self) -> String {
        self.0.report(KINDS.map(|(name, _, _)| name))
    }
}
