//! What is swept, and the model's words at each of its values.

use crate::arguments::whole_number;
use crate::echo::{quoted, shown};
use crate::model::quantity::Quantity;
use crate::model::{kind, words, MOST_ENTRIES, MOST_STEPS};
use crate::Failure;

/// The options that name an axis.
pub const NAMES: [&str; 5] = ["time", "prune", "step-limit", "entry-limit", "rate"];

/// The places of the words that are changed.
const TIME: usize = 1;
const PRUNE: usize = 2;
const CAPS: usize = 3;

pub struct Axis<'a> {
    of: Of,
    option: &'static str,
    values: Vec<&'a str>,
}

#[derive(Clone, Copy, PartialEq, Eq)]
enum Of {
    Time,
    Prune,
    StepLimit,
    EntryLimit,
    /// The index of a transition.
    Rate(usize),
}

/// A value of the axis, as it was spelled, its place on the plot, and the words there.
pub struct Point {
    pub spelled: String,
    /// The number, for the limits; for quantities the logarithm, which zero has none of.
    pub at: Option<f64>,
    pub words: Vec<u32>,
}

impl<'a> Axis<'a> {
    /// The axis of an option's value.
    pub fn of(name: &'static str, value: &'a str) -> Result<Axis<'a>, Failure> {
        let (of, list) = match name {
            "time" => (Of::Time, value),
            "prune" => (Of::Prune, value),
            "step-limit" => (Of::StepLimit, value),
            "entry-limit" => (Of::EntryLimit, value),
            _ => {
                let wrong = || {
                    Failure::new(format!("--rate {}: expected INDEX=RATE,RATE,..", shown(value)))
                };
                let (index, list) = value.split_once('=').ok_or_else(wrong)?;
                let index = whole_number(index).and_then(|index| usize::try_from(index).ok());
                (Of::Rate(index.ok_or_else(wrong)?), list)
            }
        };
        Ok(Axis { of, option: name, values: list.split(',').collect() })
    }

    /// For the head of the table and below the plot.
    pub fn name(&self) -> String {
        match self.of {
            Of::Rate(index) => format!("rate of {index}"),
            _ => self.option.into(),
        }
    }

    pub fn is_logarithmic(&self) -> bool {
        !matches!(self.of, Of::StepLimit | Of::EntryLimit)
    }

    /// The points of a model that lines spell.
    pub fn points(&self, words: &[u32]) -> Result<Vec<Point>, Failure> {
        let point = |spelled: &&str| {
            let (at, changed) = self.point(words, spelled)?;
            Ok(Point { spelled: spelled.to_string(), at, words: changed })
        };
        self.values.iter().map(point).collect()
    }

    fn point(&self, words: &[u32], spelled: &str) -> Result<(Option<f64>, Vec<u32>), Failure> {
        let (place, word, at) = match self.of {
            Of::Time => self.quantity(TIME, kind::TIME, spelled)?,
            Of::Prune => self.quantity(PRUNE, kind::PRUNE, spelled)?,
            Of::Rate(index) => {
                self.quantity(self.rate_place(words, index)?, kind::RATE, spelled)?
            }
            Of::StepLimit => {
                let limit = self.limit(spelled, MOST_STEPS)?;
                (CAPS, words[CAPS] & !(0xFF << 20) | limit << 20, Some(f64::from(limit)))
            }
            Of::EntryLimit => {
                let limit = self.limit(spelled, MOST_ENTRIES)?;
                (CAPS, words[CAPS] & !(0xFF << 12) | limit << 12, Some(f64::from(limit)))
            }
        };
        let mut words = words.to_vec();
        words[place] = word;
        Ok((at, words))
    }

    /// The place, the word and the logarithm of a quantity.
    fn quantity(
        &self,
        place: usize,
        of: u32,
        spelled: &str,
    ) -> Result<(usize, u32, Option<f64>), Failure> {
        let quantity = Quantity::parse(spelled, of).map_err(|why| self.wrong(&why))?;
        let (coefficient, scale) = (f64::from(quantity.coefficient), f64::from(quantity.scale));
        let at = (quantity.coefficient != 0).then(|| coefficient.log10() - scale);
        Ok((place, quantity.word(of), at))
    }

    fn limit(&self, spelled: &str, most: u32) -> Result<u32, Failure> {
        let limit = whole_number(spelled).and_then(|limit| u32::try_from(limit).ok());
        limit.filter(|limit| (1..=most).contains(limit)).ok_or_else(|| {
            self.wrong(&format!("{} is no whole number from 1 to {most}", quoted(spelled)))
        })
    }

    fn rate_place(&self, words: &[u32], index: usize) -> Result<usize, Failure> {
        let places = words::transitions(words);
        let Some(&place) = places.get(index) else {
            let count = places.len();
            return Err(self.wrong(&format!(
                "transition {index} is none of the model's {count}, counted from 0"
            )));
        };
        if words[place] >> 28 != kind::SLOW {
            return Err(self.wrong(&format!("transition {index} is fast: expected a slow one")));
        }
        Ok(place + 1)
    }

    fn wrong(&self, why: &str) -> Failure {
        Failure::new(format!("--{}: {why}", self.option))
    }
}

#[cfg(test)]
mod tests {
    use super::*;

    /// Model B.
    const WORDS: [u32; 15] = [
        0x11005001, 0x2000000A, 0x30000000, 0x41801000, 0x50001002, 0x60400003, 0x50002003,
        0x60400002, 0x70002004, 0x80400001, 0x90400001, 0xA0000001, 0x50004005, 0x60400001,
        0xF0000000,
    ];

    /// The places and words that each point changes.
    fn changed(name: &'static str, value: &str) -> Result<Vec<Vec<(usize, u32)>>, Failure> {
        let points = Axis::of(name, value)?.points(&WORDS)?;
        let differ = |point: &Point| {
            let pairs = point.words.iter().zip(&WORDS).enumerate();
            pairs.filter(|(_, (new, old))| new != old).map(|(at, (new, _))| (at, *new)).collect()
        };
        Ok(points.iter().map(differ).collect())
    }

    #[test]
    fn words_of_points() -> Result<(), Failure> {
        assert_eq!(changed("time", "1,0.5")?, [[(1, 0x20000001)], [(1, 0x20100005)]]);
        assert_eq!(changed("prune", "0,1e-9")?, [vec![], vec![(2, 0x30900001)]]);
        assert_eq!(changed("step-limit", "1,23")?, [[(3, 0x40101000)], [(3, 0x41701000)]]);
        assert_eq!(changed("entry-limit", "2,24")?, [[(3, 0x41802000)], [(3, 0x41818000)]]);
        assert_eq!(changed("rate", "1=5e-4")?, [[(7, 0x60400005)]]);
        assert_eq!(changed("rate", "3=5e-4")?, [[(13, 0x60400005)]]);
        Ok(())
    }

    /// Words that name pruned states are no transitions.
    #[test]
    fn rates_behind_pruned_states() -> Result<(), Failure> {
        let words = [&WORDS[..4], &[0xC0000003, 0xC0000005], &WORDS[4..]].concat();
        let points = Axis::of("rate", "1=5e-4")?.points(&words)?;
        let differ: Vec<usize> =
            (0..words.len()).filter(|&i| points[0].words[i] != words[i]).collect();
        assert_eq!((differ, points[0].words[9]), (vec![9], 0x60400005));
        Ok(())
    }

    #[test]
    fn what_is_no_axis() {
        for (name, value) in [
            ("time", ""),
            ("time", "0"),
            ("time", "1,,2"),
            ("time", "1.2345678"),
            ("prune", "-1"),
            ("step-limit", "0"),
            ("step-limit", "25"),
            ("entry-limit", "1.5"),
            ("rate", "1e-4"),
            ("rate", "=1e-4"),
            ("rate", "2=1e-4"),
            ("rate", "4=1e-4"),
            ("rate", "0="),
        ] {
            assert!(changed(name, value).is_err(), "{name} {value}");
        }
    }

    #[test]
    fn places_on_the_plot() -> Result<(), Failure> {
        let at = |name, value| -> Result<Option<f64>, Failure> {
            Ok(Axis::of(name, value)?.points(&WORDS)?[0].at)
        };
        assert_eq!(at("time", "100")?, Some(2.0));
        assert_eq!(at("prune", "1e-9")?, Some(-9.0));
        assert_eq!(at("prune", "0")?, None);
        assert_eq!(at("entry-limit", "3")?, Some(3.0));
        Ok(())
    }
}
