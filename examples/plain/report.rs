//! The report: what is counted over the whole run.

use std::fmt;

use crate::audits::Audit;
use crate::lines::Line;

/// The numbers of the report. `times_us` has the time of each lookup that was found, in ascending
/// order after `sort_times`.
#[derive(Default)]
pub struct Report {
    pub events: u64,
    members: u64,
    join_failed: u64,
    crashes: u64,
    stranded: u64,
    drops: u64,
    late: u64,
    timeouts: u64,
    lookups: u64,
    found: u64,
    lost: u64,
    busy: u64,
    ignored: u64,
    hops_sum: u64,
    hops_greatest: u64,
    times_us: Vec<u64>,
    audits: u64,
    ringless: u64,
    unordered: u64,
    insufficient: u64,
    losses: u64,
    again: u64,
    forgotten: u64,
    leaves: u64,
    rescues: u64,
    creates: u64,
    timeouts_sum: u64,
    /// Whether the losses are printed, as they are in the second and the extended profile.
    pub has_losses: bool,
    /// Whether the numbers of the extended profile are printed.
    pub is_extended: bool,
}

impl Report {
    /// Counts a line of an event.
    pub fn count(&mut self, line: &Line) {
        match line {
            Line::Join { .. } | Line::Ask { .. } | Line::Send { .. } => {}
            Line::Member { .. } => self.members += 1,
            Line::JoinFailed => self.join_failed += 1,
            Line::Crash => self.crashes += 1,
            Line::Stranded { .. } => self.stranded += 1,
            Line::Drop { .. } => self.drops += 1,
            Line::Late { .. } => self.late += 1,
            Line::Timeout { .. } => self.timeouts += 1,
            Line::Lose { .. } => self.losses += 1,
            Line::Again { .. } => self.again += 1,
            Line::Forget { .. } => self.forgotten += 1,
            Line::Leave => self.leaves += 1,
            Line::Rescue { .. } => self.rescues += 1,
            Line::Create => self.creates += 1,
            Line::Lookup { .. } => self.lookups += 1,
            Line::Found {
                hops, timeouts, us, ..
            } => self.count_found(u64::from(*hops), u64::from(*timeouts), *us),
            Line::Lost { .. } => self.lost += 1,
            Line::Busy { .. } => self.busy += 1,
            Line::Ignored { .. } => self.ignored += 1,
        }
    }

    /// Counts a lookup that was found.
    fn count_found(&mut self, hops: u64, timeouts: u64, us: u64) {
        self.found += 1;
        self.timeouts_sum += timeouts;
        self.hops_sum += hops;
        self.hops_greatest = self.hops_greatest.max(hops);
        self.times_us.push(us);
    }

    /// Counts an audit.
    pub fn count_audit(&mut self, audit: &Audit) {
        self.audits += 1;
        self.ringless += u64::from(audit.ring == 0);
        self.unordered += u64::from(!audit.is_ordered);
        self.insufficient += u64::from(!audit.is_sufficient);
    }

    /// Puts the times in order, which they have to be in before the report is printed.
    pub fn sort_times(&mut self) {
        self.times_us.sort_unstable();
    }

    /// The words and numbers of the lines, in their order.
    fn rows(&self) -> Vec<(&'static str, u64)> {
        let times = &self.times_us;
        let median = times.get(times.len().saturating_sub(1) / 2);
        let ended = self.found + self.lost;
        let mut rows = vec![
            ("events", self.events),
            ("members", self.members),
            ("join-failed", self.join_failed),
            ("crashes", self.crashes),
            ("stranded", self.stranded),
            ("drops", self.drops),
            ("late", self.late),
            ("timeouts", self.timeouts),
            ("lookups", self.lookups),
            ("found", self.found),
            ("lost", self.lost),
            ("busy", self.busy),
            ("ignored", self.ignored),
            ("unfinished", self.lookups.saturating_sub(ended)),
            ("hops-sum", self.hops_sum),
            ("hops-greatest", self.hops_greatest),
            ("us-sum", times.iter().sum()),
            ("us-least", times.first().copied().unwrap_or(0)),
            ("us-median", median.copied().unwrap_or(0)),
            ("us-greatest", times.last().copied().unwrap_or(0)),
            ("audits", self.audits),
            ("ringless", self.ringless),
            ("unordered", self.unordered),
            ("insufficient", self.insufficient),
        ];
        rows.extend(self.has_losses.then_some(("losses", self.losses)));
        if self.is_extended {
            rows.extend([
                ("again", self.again),
                ("forgotten", self.forgotten),
                ("leaves", self.leaves),
                ("rescues", self.rescues),
                ("creates", self.creates),
                ("timeouts-sum", self.timeouts_sum),
            ]);
        }
        rows
    }
}

impl fmt::Display for Report {
    fn fmt(&self, out: &mut fmt::Formatter) -> fmt::Result {
        let mut rows = self.rows().into_iter();
        rows.try_for_each(|(word, number)| writeln!(out, "{word} {number}"))
    }
}
