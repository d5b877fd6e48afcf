//! The calls that read a bench.

use crate::layout::{bit, members};
use crate::record::index;
use crate::{Bench, GlobalData, Refusal, Value};

impl Bench {
    /// Writes the decided data of process `number` to `out`, absent as 0, and gives its marks.
    /// Words past n stay; a refusal writes nothing.
    pub fn global_data(&self, number: u8, out: &mut [u32]) -> Result<u16, Refusal> {
        self.check_sound()?;
        let p = &self.processes[index(number, self.n)?];
        let out = out.get_mut(..self.n as usize).ok_or(Refusal::Slice)?;
        if !p.has_decided() {
            return Err(Refusal::Undecided);
        }
        for (i, word) in out.iter_mut().enumerate() {
            *word = p.estimate.entry(i).map_or(0, Value::word);
        }
        Ok(p.estimate.present)
    }

    /// The decided data of process `number` as a value; words under absent entries are 0.
    pub fn decision(&self, number: u8) -> Result<GlobalData, Refusal> {
        let mut data = GlobalData::ABSENT;
        data.present = self.global_data(number, &mut data.values)?;
        Ok(data)
    }

    /// Writes (a, b, r) for each message in transit and gives how many there are.
    /// The order is by r with decisions first, then sender, then receiver.
    pub fn list_in_transit(&self, out: &mut [u8]) -> Result<usize, Refusal> {
        self.check_sound()?;
        let count = self.count_in_transit();
        let out = out.get_mut(..3 * count).ok_or(Refusal::Slice)?;
        for (place, message) in out.chunks_exact_mut(3).zip(self.messages()) {
            place.copy_from_slice(&message);
        }
        Ok(count)
    }

    fn count_in_transit(&self) -> usize {
        self.messages().count()
    }

    /// The messages in transit between the n processes, numbered from 1.
    fn messages(&self) -> impl Iterator<Item = [u8; 3]> + '_ {
        let senders = move |r| members(self.everyone()).map(move |a| (a, r));
        (0..=self.t + 1).flat_map(senders).flat_map(move |(a, r)| {
            let receivers = self.in_transit[a * Bench::SLOTS + r as usize];
            members(receivers).map(move |b| [a as u8 + 1, b as u8 + 1, r])
        })
    }

    /// Process a, counted from 0, has crashed.
    pub fn has_crashed(&self, a: usize) -> bool {
        self.crashed & bit(a) != 0
    }
}

#[cfg(test)]
mod tests {
    use super::*;
    use crate::gen::everything_in_transit;
    use crate::Record;

    fn decided() -> Bench {
        let mut bench = Bench::open(3, 1).unwrap();
        bench.processes[1].decided = 1;
        bench.processes[1].estimate.present = 0b101;
        bench.processes[1].estimate.values = [7; 16];
        bench.crashed = 0b010;
        bench
    }

    #[test]
    fn global_data_is_written_up_to_n() {
        let mut out = [9; 5];
        assert_eq!(decided().global_data(2, &mut out), Ok(0b101));
        assert_eq!(out, [7, 0, 7, 9, 9]);
    }

    #[test]
    fn global_data_refusals_in_order() {
        let mut bench = decided();
        let mut out = [9; 3];
        assert_eq!(bench.global_data(0, &mut out[..2]), Err(Refusal::Field));
        assert_eq!(bench.global_data(4, &mut out[..2]), Err(Refusal::Field));
        assert_eq!(bench.global_data(1, &mut out[..2]), Err(Refusal::Slice));
        assert_eq!(bench.global_data(2, &mut out[..2]), Err(Refusal::Slice));
        assert_eq!(bench.global_data(1, &mut out), Err(Refusal::Undecided));
        bench.crashed = 8;
        assert_eq!(bench.global_data(9, &mut out), Err(Refusal::Damaged));
        assert_eq!(out, [9; 3]);
    }

    #[test]
    fn in_transit_is_listed_in_order() {
        let mut bench = Bench::open(3, 1).unwrap();
        bench.in_transit[2 * 17 + 1] = 0b001;
        bench.in_transit[1] = 0b110;
        bench.in_transit[17 + 2] = 0b100;
        bench.in_transit[2 * 17] = 0b010;
        let mut out = [9; 17];
        assert_eq!(bench.list_in_transit(&mut out), Ok(5));
        assert_eq!(out, [3, 2, 0, 1, 2, 1, 1, 3, 1, 3, 1, 1, 2, 3, 2, 9, 9]);
    }

    #[test]
    fn everything_is_listed_in_order() {
        let mut expected = Vec::new();
        for r in 0..=16 {
            for a in 1..=16 {
                (1..=16).for_each(|b| expected.extend([a, b, r]));
            }
        }
        let mut out = vec![99; expected.len()];
        assert_eq!(everything_in_transit(16, 15).list_in_transit(&mut out), Ok(4352));
        assert_eq!(out, expected);
    }

    #[test]
    fn in_transit_refusals() {
        let mut bench = Bench::open(2, 1).unwrap();
        assert_eq!(bench.list_in_transit(&mut []), Ok(0));
        bench.step(&Record::start(1, 0, 0).bytes()).unwrap();
        bench.step(&Record::send(1, 2).bytes()).unwrap();
        let mut out = [9; 2];
        assert_eq!(bench.list_in_transit(&mut out), Err(Refusal::Slice));
        assert_eq!(out, [9; 2]);
        bench.crashed = 4;
        assert_eq!(bench.list_in_transit(&mut out), Err(Refusal::Damaged));
        bench.n = 0;
        assert_eq!(bench.list_in_transit(&mut out), Err(Refusal::Damaged));
        assert_eq!(out, [9; 2]);
    }
}
