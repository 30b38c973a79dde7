//! The parameters of a domain, their ranges, and random ones.

use crate::random::Random;
use std::fmt::{Display, Formatter, Result};

// A line a parameter, in the paper's order: its name, its least and its greatest value, and the greatest of a small domain, where paths
// switch and nodes are freed within a few steps, and of a middling one.
macro_rules! parameters {
    ($($(#[$doc:meta])* $name:ident: $least:literal to $most:literal, small $small:literal, middling $middling:literal;)*) => {
        #[derive(Clone, Copy, Debug, PartialEq, Eq, Hash)]
        pub struct Params {
            $($(#[$doc])* pub $name: u32,)*
        }

        impl Params {
            pub const COUNT: usize = [$(stringify!($name),)*].len();
            pub const LEAST: Params = Params { $($name: $least,)* };
            pub const MOST: Params = Params { $($name: $most,)* };
            const SMALL: Params = Params { $($name: $small,)* };
            const MIDDLING: Params = Params { $($name: $middling,)* };

            pub fn from_numbers([$($name,)*]: [u32; Params::COUNT]) -> Params {
                Params { $($name,)* }
            }

            pub fn numbers(self) -> [u32; Params::COUNT] {
                [$(self.$name,)*]
            }
        }
    };
}

parameters! {
    /// N
    processes: 1 to 16, small 3, middling 6;
    /// K, of one process
    hazards: 1 to 8, small 2, middling 4;
    /// M
    nodes: 1 to 256, small 6, middling 40;
    /// T, in ticks
    visibility_bound: 1 to 1000, small 4, middling 10;
    /// Q, in calls of manage
    quiescence_threshold: 1 to 1000, small 2, middling 4;
    /// C, in nodes
    fallback_threshold: 1 to 256, small 4, middling 20;
    /// E, in ticks: so late a flush, the paper's rooster, may come
    lateness: 0 to 1000, small 3, middling 6;
}

impl Params {
    /// N, K, M, T, Q, C, E; those that are not given are at their least.
    pub fn of(first: &[u32]) -> Params {
        let mut numbers = Params::LEAST.numbers();
        numbers[..first.len()].copy_from_slice(first);
        Params::from_numbers(numbers)
    }

    /// T + E: no store is pending for more ticks, and a scan frees a node that is older.
    pub fn delay(self) -> u32 {
        self.visibility_bound + self.lateness
    }

    pub fn in_range(self) -> bool {
        let limits = Params::LEAST.numbers().into_iter().zip(Params::MOST.numbers());
        self.numbers().iter().zip(limits).all(|(&x, (least, most))| (least..=most).contains(&x))
    }

    /// Mostly small parameters; now and then any.
    pub fn random(random: &mut Random) -> Params {
        let limits = match random.below(20) {
            0..=11 => Params::SMALL,
            12..=16 => Params::MIDDLING,
            _ => Params::MOST,
        };
        match random.below(40) {
            0 => Params::MOST,
            1 => Params::LEAST,
            _ => {
                let (least, most) = (Params::LEAST.numbers(), limits.numbers());
                Params::from_numbers(std::array::from_fn(|i| least[i] + random.up_to(most[i] - least[i])))
            }
        }
    }
}

impl Display for Params {
    fn fmt(&self, f: &mut Formatter) -> Result {
        let numbers: Vec<String> = self.numbers().iter().map(u32::to_string).collect();
        write!(f, "{}", numbers.join(" "))
    }
}
