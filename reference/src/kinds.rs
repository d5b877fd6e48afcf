//! How often a test has met each of some kinds of cases, so that it can tell what it has not.

/// Counts, a kind at each place. The names are with whoever counts.
#[derive(Clone, Copy, PartialEq, Eq, Debug)]
pub struct Kinds<const N: usize>([u64; N]);

impl<const N: usize> Default for Kinds<N> {
    fn default() -> Kinds<N> {
        Kinds([0; N])
    }
}

impl<const N: usize> Kinds<N> {
    /// Counts one case, which may be of several kinds.
    pub fn count(&mut self, of: [bool; N]) {
        self.0.iter_mut().zip(of).for_each(|(count, met)| *count += u64::from(met));
    }

    pub fn add(&mut self, other: &Kinds<N>) {
        self.0.iter_mut().zip(other.0).for_each(|(sum, more)| *sum += more);
    }

    /// The places of the kinds that were not met.
    pub fn missing(&self) -> impl Iterator<Item = usize> + '_ {
        (0..N).filter(|&i| self.0[i] == 0)
    }

    pub fn report(&self, names: [&str; N]) -> String {
        let line = |(name, count): (&str, u64)| format!("{name} {count}");
        names.into_iter().zip(self.0).map(line).collect::<Vec<String>>().join(", ")
    }
}
