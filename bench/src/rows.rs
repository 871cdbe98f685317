//! The rows of the tables: a job, its size, and its costs.

use std::io;

use crate::cost::{Costs, Programs};
use crate::jobs::Job;
use crate::measure::Measure;
use crate::table::{grouped, Report};

/// What grows in a series, and what our cost is divided by in its table.
#[derive(Clone, Copy)]
pub enum Per {
    Fact,
    Matching,
}

/// A job's size and its costs.
pub struct Row {
    facts: usize,
    matchings: usize,
    pub costs: Costs,
}

impl Row {
    /// How many facts or matchings the job has.
    pub fn count(&self, per: Per) -> f64 {
        match per {
            Per::Fact => self.facts as f64,
            Per::Matching => self.matchings as f64,
        }
    }
}

/// Measures jobs one after the other, and prints a row for each.
pub fn measured(report: &mut Report, programs: &Programs, jobs: &[Job], per: Option<Per>) -> io::Result<Vec<Row>> {
    let columns = columns(programs.measure, per);
    let columns: Vec<&str> = columns.iter().map(String::as_str).collect();
    report.head(&columns)?;
    let mut rows = Vec::new();
    for job in jobs {
        let row = Row { facts: job.facts(), matchings: job.matchings()?, costs: programs.costs(job)? };
        report.row(&columns, &cells(job, &row, programs.measure, per))?;
        rows.push(row);
    }
    Ok(rows)
}

fn columns(measure: Measure, per: Option<Per>) -> Vec<String> {
    let (unit, small) = (measure.unit().name, measure.small_unit().name);
    let mut columns: Vec<String> = ["Job", "Facts", "Matchings", "Rounds"].map(String::from).into();
    columns.extend([format!("Ours, {unit}"), format!("clingo, {unit}"), "Ours by clingo's".to_string()]);
    columns.extend(per.map(|per| format!("Ours {}, {small}", each(per))));
    columns
}

fn each(per: Per) -> &'static str {
    match per {
        Per::Fact => "a fact",
        Per::Matching => "a matching",
    }
}

fn cells(job: &Job, row: &Row, measure: Measure, per: Option<Per>) -> Vec<String> {
    let Costs { ours, clingo } = &row.costs;
    let rounds = match &ours.said {
        Ok(rounds) => grouped(*rounds as f64, 0),
        Err(verdict) => verdict.clone(),
    };
    let [facts, matchings] = [Per::Fact, Per::Matching].map(|per| grouped(row.count(per), 0));
    let mut cells = vec![job.name.clone(), facts, matchings, rounds, measure.unit().shown(ours.cost)];
    cells.push(clingo.map(|cost| measure.unit().shown(cost)).unwrap_or_default());
    // less its start, clingo's least job takes no time that the clock can tell
    cells.push(clingo.filter(|cost| *cost > 0.0).map(|cost| grouped(ours.cost / cost, 2)).unwrap_or_default());
    cells.extend(per.map(|per| measure.small_unit().shown(ours.cost / row.count(per))));
    cells
}

/// What one more of what grows costs, by the last two rows of a series.
pub fn one_more(rows: &[Row], measure: Measure, per: Per) -> Option<String> {
    let [.., row, last] = rows else { return None };
    let more = last.count(per) - row.count(per);
    let unit = measure.small_unit();
    let ours = unit.shown((last.costs.ours.cost - row.costs.ours.cost) / more);
    let clingo = match (row.costs.clingo, last.costs.clingo) {
        (Some(low), Some(high)) => format!(", clingo {}", unit.shown((high - low) / more)),
        _ => String::new(),
    };
    Some(format!("By the last two rows {} more costs us {ours}{clingo} ({}).", each(per), unit.name))
}
