//! Random lists where many tie for the lead, and the kinds of leads that a test has met.

use crate::gen::{self, Rng};
use crate::kinds::Kinds;
use crate::summed::{Aggregates, Lists};
use crate::values::exceeding;
use crate::Value;

/// A value of these portions, its diet portions often at an end or near a border of their bytes.
fn of_portions(rng: &mut Rng, portions: u16) -> Value {
    let any = rng.draw() as u16;
    let diet = rng.pick(&[0, 1, 255, 256, 32_767, 32_768, portions, portions.saturating_sub(1), any]);
    Value::new(portions, if diet > portions { any.checked_rem(portions).unwrap_or(0) } else { diet })
}

/// Entries of n, a few values many times: most of them with `most` portions, and few with more.
fn tied_entries(rng: &mut Rng, n: usize, most: u16) -> Vec<u32> {
    let tied = [0; 3].map(|_| of_portions(rng, most));
    let any = rng.below(most as usize + 1) as u16;
    let fewer = rng.pick(&[most.saturating_sub(1), most / 2, most & 0xff00, most & 0x7fff, any]);
    let fewer = [Value::new(fewer, fewer), of_portions(rng, fewer)];
    let more = of_portions(rng, most.saturating_add(1));
    let [one, two, three] = tied;
    let choices = match rng.below(5) {
        0 => vec![one],
        1 => vec![one, one, one, two],
        2 => vec![one, two, three],
        3 => vec![one, two, three, fewer[0], fewer[1]],
        _ => vec![one, one, two, three, fewer[0], more],
    };
    (0..n).map(|_| rng.pick(&choices).word()).collect()
}

/// Good n, marks and length, and many ties for the lead, also with words under absent entries; a few entries have too
/// many diet portions. Standing values are any.
pub fn any_ties(rng: &mut Rng) -> (u8, Vec<u32>, u16, Vec<u32>) {
    let any = 1 + rng.below(16) as u8;
    let n = rng.pick(&[1, 2, 3, 4, 10, 16, 16, any]);
    let any = rng.draw() as u16;
    let most = rng.pick(&[0, 1, 2, 40, 256, 300, 32_768, 40_000, 65_535, any]);
    let mut entries = tied_entries(rng, n as usize, most);
    // One other than the rest, anywhere, is often the only one to win or to lose a tie.
    if rng.percent(30) {
        let i = rng.pick(&[0, n as usize - 1, any as usize % n as usize]);
        entries[i] = of_portions(rng, most).word();
    }
    if rng.percent(5) {
        entries[any as usize % n as usize] = exceeding(rng).word();
    }
    let all = if n < 16 { (1u16 << n) - 1 } else { u16::MAX };
    let marks = if rng.percent(50) { all } else { rng.subset(all) };
    let standing = gen::standing(rng, n);
    (n, entries, marks, standing)
}

/// An entry, its number from 1.
#[derive(Clone, Copy)]
struct Entry {
    number: usize,
    portions: u32,
    diet: u32,
}

/// A lead that was given.
struct Contest {
    n: u8,
    lead: Entry,
    present: Vec<Entry>,
    /// Of those present, the lead among them: as many portions as it has; and as many diet portions too.
    tied: Vec<Entry>,
    equal: Vec<Entry>,
    /// Those that are absent, but could lead if they were not.
    absent: Vec<Entry>,
}

impl Contest {
    fn of(lists: Lists, lead: u8) -> Contest {
        let entry = |number: usize| {
            let word = lists.entries[number - 1];
            Entry { number, portions: word % 65_536, diet: word / 65_536 }
        };
        let lead = entry(lead as usize);
        let entries = (1..=lists.n as usize).map(entry);
        let (present, absent): (Vec<Entry>, Vec<Entry>) =
            entries.partition(|one| lists.marks >> (one.number - 1) & 1 == 1);
        let tied: Vec<Entry> = present.iter().copied().filter(|one| one.portions == lead.portions).collect();
        let equal = tied.iter().copied().filter(|one| one.diet == lead.diet).collect();
        let absent = absent.into_iter().filter(|one| one.diet <= one.portions).collect();
        Contest { n: lists.n, lead, present, tied, equal, absent }
    }

    /// The most portions of several.
    fn by_portions(&self) -> bool {
        self.tied.len() == 1 && self.present.len() > 1
    }

    /// As many portions as others and more diet portions.
    fn by_diet(&self) -> bool {
        self.tied.len() > 1 && self.equal.len() == 1
    }

    /// As many of both as others.
    fn by_number(&self) -> bool {
        self.equal.len() > 1
    }

    /// Of some entries the lead is the first, the last, or another.
    fn leads_first(&self, of: &[Entry]) -> bool {
        of.first().is_some_and(|one| one.number == self.lead.number)
    }

    fn leads_last(&self, of: &[Entry]) -> bool {
        of.last().is_some_and(|one| one.number == self.lead.number)
    }

    fn leads_between(&self, of: &[Entry]) -> bool {
        !self.leads_first(of) && !self.leads_last(of)
    }

    /// A present one is so, beside the lead.
    fn some(&self, so: fn(&Entry, &Entry) -> bool) -> bool {
        self.present.iter().any(|one| so(one, &self.lead))
    }

    /// An absent one is so, beside the lead.
    fn out(&self, so: fn(&Entry, &Entry) -> bool) -> bool {
        self.absent.iter().any(|one| so(one, &self.lead))
    }

    fn is(&self, portions: u32, diet: u32) -> bool {
        (self.lead.portions, self.lead.diet) == (portions, diet)
    }

    /// In a tie one after the lead has more diet portions than one before it, but not the most.
    fn rises_and_falls(&self) -> bool {
        let side = |after: bool| {
            let of = self.tied.iter().filter(move |one| one.number != self.lead.number);
            of.filter(move |one| (one.number > self.lead.number) == after).map(|one| one.diet)
        };
        self.by_diet() && side(false).any(|before| side(true).any(|after| before < after))
    }

    /// Before all of a tie whose first is not the lead comes one with fewer portions and more diet portions.
    fn passes_more_diet(&self) -> bool {
        let first = self.tied[0].number;
        first != self.lead.number
            && self.present.iter().any(|one| one.number < first && one.diet > self.lead.diet)
    }
}

fn more_diet(one: &Entry, lead: &Entry) -> bool {
    one.portions == lead.portions && one.diet > lead.diet
}

fn same(one: &Entry, lead: &Entry) -> bool {
    (one.portions, one.diet) == (lead.portions, lead.diet)
}

fn fewer(one: &Entry, lead: &Entry) -> bool {
    one.portions < lead.portions
}

fn less_diet(one: &Entry, lead: &Entry) -> bool {
    one.portions == lead.portions && one.diet < lead.diet
}

/// How often each of `LEADS` was met.
#[derive(Clone, Copy, PartialEq, Eq, Debug, Default)]
pub struct Leads(Kinds<{ LEADS.len() }>);

type Meets = fn(&Contest) -> bool;

/// How one can come to lead, and what must not count for it.
const LEADS: [(&str, Meets); 46] = [
    ("n 1", |x| x.n == 1),
    ("one present of several", |x| x.n > 1 && x.present.len() == 1),
    ("by portions, the first", |x| x.by_portions() && x.leads_first(&x.present)),
    ("by portions, the last", |x| x.by_portions() && x.leads_last(&x.present)),
    ("by portions, one between", |x| x.by_portions() && x.leads_between(&x.present)),
    ("before it fewer portions and more diet", |x| {
        x.some(|one, lead| fewer(one, lead) && one.diet > lead.diet && one.number < lead.number)
    }),
    ("after it fewer portions and more diet", |x| {
        x.some(|one, lead| fewer(one, lead) && one.diet > lead.diet && one.number > lead.number)
    }),
    ("after it fewer portions and as much diet", |x| {
        x.some(|one, lead| fewer(one, lead) && one.diet == lead.diet && one.number > lead.number)
    }),
    ("one portion fewer, all of them diet", |x| {
        x.some(|one, lead| {
            one.portions + 1 == lead.portions && one.diet == one.portions && one.diet > lead.diet
        })
    }),
    ("fewer portions, but more with the diet added", |x| {
        x.some(|one, lead| fewer(one, lead) && one.portions + one.diet > lead.portions + lead.diet)
    }),
    ("fewer portions, but more without the diet", |x| {
        x.some(|one, lead| fewer(one, lead) && one.portions - one.diet > lead.portions - lead.diet)
    }),
    ("portions on both sides of 32768", |x| {
        x.lead.portions >= 32_768 && x.some(|one, _| one.portions < 32_768)
    }),
    ("fewer portions, a larger low byte", |x| {
        x.some(|one, lead| fewer(one, lead) && one.portions % 256 > lead.portions % 256)
    }),
    ("tie of two by diet, the first", |x| x.by_diet() && x.tied.len() == 2 && x.leads_first(&x.tied)),
    ("tie of two by diet, the second", |x| x.by_diet() && x.tied.len() == 2 && x.leads_last(&x.tied)),
    ("tie of more by diet, the first", |x| x.by_diet() && x.tied.len() > 2 && x.leads_first(&x.tied)),
    ("tie of more by diet, the last", |x| x.by_diet() && x.tied.len() > 2 && x.leads_last(&x.tied)),
    ("tie of more by diet, one between", |x| x.by_diet() && x.leads_between(&x.tied)),
    ("tie of 16 by diet, 1 leads", |x| x.by_diet() && x.tied.len() == 16 && x.lead.number == 1),
    ("tie of 16 by diet, 16 leads", |x| x.by_diet() && x.tied.len() == 16 && x.lead.number == 16),
    ("tie by one diet portion", |x| {
        x.by_diet() && x.some(|one, lead| less_diet(one, lead) && one.diet + 1 == lead.diet)
    }),
    ("tie of 1/1 and 1/0", |x| x.is(1, 1) && x.some(less_diet)),
    ("tie of 65535/65535 and less diet", |x| x.is(65_535, 65_535) && x.some(less_diet)),
    ("less diet on the other side of 32768", |x| {
        x.some(|one, lead| less_diet(one, lead) && one.diet < 32_768 && lead.diet >= 32_768)
    }),
    ("less diet with a larger low byte", |x| {
        x.some(|one, lead| less_diet(one, lead) && one.diet % 256 > lead.diet % 256)
    }),
    ("tie by diet that rises and falls", Contest::rises_and_falls),
    ("tie after fewer portions and more diet", Contest::passes_more_diet),
    ("two equal in both", |x| x.equal.len() == 2 && x.tied.len() == 2),
    ("more equal in both", |x| x.equal.len() > 2),
    ("16 equal in both", |x| x.equal.len() == 16),
    ("equal in both at 0/0", |x| x.by_number() && x.is(0, 0)),
    ("equal in both at 65535/65535", |x| x.by_number() && x.is(65_535, 65_535)),
    ("equal in both without diet", |x| x.by_number() && x.lead.portions > 0 && x.lead.diet == 0),
    ("equal in both, less diet before", |x| x.by_number() && x.leads_last(&x.tied) && x.some(less_diet)),
    ("equal in both, less diet after", |x| x.by_number() && !x.leads_last(&x.tied)),
    ("equal in both, fewer portions after", |x| x.by_number() && !x.leads_last(&x.present)),
    ("equal in both, 1 and 16", |x| x.lead.number == 16 && x.equal[0].number == 1),
    ("equal in both, of one digit and of two", |x| {
        x.lead.number >= 10 && x.equal.iter().any(|one| (2..10).contains(&one.number))
    }),
    ("absent with more portions before it", |x| {
        x.out(|one, lead| one.portions > lead.portions && one.number < lead.number)
    }),
    ("absent with more portions after it", |x| {
        x.out(|one, lead| one.portions > lead.portions && one.number > lead.number)
    }),
    ("absent with as many portions and more diet before it", |x| {
        x.out(|one, lead| more_diet(one, lead) && one.number < lead.number)
    }),
    ("absent with as many portions and more diet after it", |x| {
        x.out(|one, lead| more_diet(one, lead) && one.number > lead.number)
    }),
    ("absent and equal in both after it", |x| x.out(|one, lead| same(one, lead) && one.number > lead.number)),
    ("tie by diet, absent with more diet", |x| x.by_diet() && x.out(more_diet)),
    ("equal in both, absent with more diet", |x| x.by_number() && x.out(more_diet)),
    ("equal in both, absent and equal after them", |x| {
        x.by_number() && x.out(|one, lead| same(one, lead) && one.number > lead.number)
    }),
];

impl Leads {
    /// Counts a call of lead, if it gave one.
    pub fn count(&mut self, lists: Lists, given: &Aggregates) {
        if given.leads() {
            let contest = Contest::of(lists, given.lead.0);
            self.0.count(LEADS.map(|(_, meets)| meets(&contest)));
        }
    }

    pub fn add(&mut self, other: &Leads) {
        self.0.add(&other.0);
    }

    /// What could be met and was not.
    pub fn missing(&self) -> Vec<&'static str> {
        self.0.missing().map(|i| LEADS[i].0).collect()
    }

    pub fn report(&self) -> String {
        self.0.report(LEADS.map(|(name, _)| name))
    }
}
