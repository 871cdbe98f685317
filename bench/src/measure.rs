//! The two measures, and how costs are shown in them.

use crate::table::grouped;

/// By what a cost is told.
#[derive(Clone, Copy, PartialEq, Eq)]
pub enum Measure {
    Seconds,
    Instructions,
}

/// A unit of costs, and with how many decimals they are shown in it.
pub struct Unit {
    pub name: &'static str,
    size: f64,
    decimals: usize,
}

impl Unit {
    /// A cost in this unit.
    pub fn shown(&self, cost: f64) -> String {
        grouped(cost / self.size, self.decimals)
    }
}

impl Measure {
    /// What is measured.
    pub fn words(self) -> &'static str {
        match self {
            Measure::Seconds => "time of one check or run, without the start",
            Measure::Instructions => "x86-64 instructions of one run",
        }
    }

    /// The unit of a job's cost.
    pub fn unit(self) -> Unit {
        match self {
            Measure::Seconds => Unit { name: "ms", size: 1e-3, decimals: 3 },
            Measure::Instructions => Unit { name: "millions", size: 1e6, decimals: 1 },
        }
    }

    /// The unit of a fact's cost, or a matching's.
    pub fn small_unit(self) -> Unit {
        match self {
            Measure::Seconds => Unit { name: "µs", size: 1e-6, decimals: 2 },
            Measure::Instructions => Unit { name: "thousands", size: 1e3, decimals: 1 },
        }
    }

    /// A power of ten of a cost, in a unit that keeps it short.
    pub fn power(self, cost: f64) -> String {
        let units = match self {
            Measure::Seconds => [(1.0, "s"), (1e-3, "ms"), (1e-6, "µs")],
            Measure::Instructions => [(1e9, "G"), (1e6, "M"), (1e3, "K")],
        };
        let (size, unit) = *units.iter().find(|(size, _)| cost > size * 0.5).unwrap_or(&units[2]);
        format!("{} {unit}", (cost / size * 10.0).round() / 10.0)
    }
}
