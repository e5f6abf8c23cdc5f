//! Bus and cube.

use crate::refusal::{Refusal, MACHINE};

#[derive(Clone, Copy, PartialEq, Eq, Debug)]
pub enum Kind {
    Bus,
    Cube,
}

/// The greatest value of each of the seven figures.
pub const LIMITS: [u64; 7] = [10_000, 99, 100_000, 10_000, 99, 10_000, 99];

#[derive(Clone, Copy, Debug)]
pub struct Machine {
    kind: Kind,
    processors: u64,
    /// delay base, delay unit, starting time, reading base, reading unit, writing base, writing unit
    figures: [u64; 7],
}

impl Machine {
    pub fn new(kind: Kind, processors: u64, figures: [u64; 7]) -> Result<Machine, Refusal> {
        let allowed = match kind {
            Kind::Bus => (1..=32).contains(&processors),
            Kind::Cube => [1, 2, 4, 8, 16, 32].contains(&processors),
        };
        if !allowed {
            return Err(Refusal::new(MACHINE, 27, processors));
        }
        for (i, (figure, limit)) in figures.iter().zip(LIMITS).enumerate() {
            if *figure > limit {
                return Err(Refusal::new(MACHINE, 28, i as u64 + 1));
            }
        }
        Ok(Machine { kind, processors, figures })
    }

    pub fn processors(&self) -> u64 {
        self.processors
    }

    pub fn starting(&self) -> u64 {
        self.figures[2]
    }

    pub fn reading(&self, size: u64) -> u64 {
        self.figures[3] + self.figures[4] * size
    }

    pub fn writing(&self, size: u64) -> u64 {
        self.figures[5] + self.figures[6] * size
    }

    /// How often the bus delay is paid between two processors.
    fn hops(&self, from: u64, to: u64) -> u64 {
        match self.kind {
            Kind::Bus => u64::from(from != to),
            Kind::Cube => u64::from((from ^ to).count_ones()),
        }
    }

    pub fn delay(&self, from: u64, to: u64, size: u64) -> u64 {
        self.hops(from, to) * (self.figures[0] + self.figures[1] * size)
    }

    /// The most hops over all pairs of processors, a processor with itself included.
    pub fn greatest_hops(&self) -> u64 {
        let mut most = 0;
        for from in 0..self.processors {
            for to in 0..self.processors {
                most = most.max(self.hops(from, to));
            }
        }
        most
    }

    /// The greatest delay for a size over all pairs of processors, given the most hops.
    pub fn greatest_delay(&self, most_hops: u64, size: u64) -> u64 {
        most_hops * (self.figures[0] + self.figures[1] * size)
    }
}

#[cfg(test)]
mod tests {
    use super::*;

    #[test]
    fn cube_of_four() {
        let m = Machine::new(Kind::Cube, 4, [1, 1, 0, 0, 0, 0, 0]).unwrap();
        assert_eq!(m.delay(0, 3, 2), 6);
        assert_eq!(m.delay(1, 3, 2), 3);
        assert_eq!(m.delay(2, 2, 2), 0);
        assert_eq!(m.greatest_delay(m.greatest_hops(), 2), 6);
    }

    #[test]
    fn one_processor_delays_nothing() {
        for kind in [Kind::Bus, Kind::Cube] {
            let m = Machine::new(kind, 1, [9, 9, 0, 0, 0, 0, 0]).unwrap();
            assert_eq!(m.greatest_delay(m.greatest_hops(), 1_000_000), 0);
        }
    }

    #[test]
    fn greatest_delay_is_the_greatest_of_all_pairs() {
        for kind in [Kind::Bus, Kind::Cube] {
            for processors in [1, 2, 4, 8, 16, 32] {
                let m = Machine::new(kind, processors, [7, 3, 0, 0, 0, 0, 0]).unwrap();
                let pairs = (0..processors).flat_map(|p| (0..processors).map(move |q| (p, q)));
                let greatest = pairs.map(|(p, q)| m.delay(p, q, 5)).max().unwrap();
                assert_eq!(m.greatest_delay(m.greatest_hops(), 5), greatest);
            }
        }
    }

    #[test]
    fn refusals() {
        let refused = |k, p, f| Machine::new(k, p, f).unwrap_err();
        assert_eq!(refused(Kind::Bus, 0, [0; 7]), Refusal::new(3, 27, 0));
        assert_eq!(refused(Kind::Bus, 33, [99_999; 7]), Refusal::new(3, 27, 33));
        assert_eq!(refused(Kind::Cube, 3, [0; 7]), Refusal::new(3, 27, 3));
        for i in 0..7 {
            let mut figures = LIMITS;
            assert!(Machine::new(Kind::Bus, 3, figures).is_ok());
            figures[i] += 1;
            assert_eq!(refused(Kind::Bus, 3, figures), Refusal::new(3, 28, i as u64 + 1));
            figures[6] += 1;
            assert_eq!(refused(Kind::Bus, 3, figures), Refusal::new(3, 28, i as u64 + 1));
        }
    }
}
