//! Days with probes and acknowledges: as they were, and ones that differ in what receive wrote.
//! Follows docs/RULES.md, "A day's capture, replayed" and "Probe and acknowledge".

use crate::apdu;
use crate::code::Code;
use crate::days::{Logged, RECEIVED};
use crate::generate::Generator;
use crate::kept::OCTETS;
use crate::model::OperationRow;
use crate::octets;
use crate::probe::{self, ACKNOWLEDGE, PROBE};
use crate::slips::Slip;
use crate::state::State;
use crate::values::{element_in_form, indefinite};

/// What is put in, the way in which it differs, and how it is done.
pub(crate) const SLIPS: &[(&str, &str, Slip)] = &[
    ("a probe's result missing at the end", "result missing at the end", |end| {
        end.probe_unknown()?;
        end.entries().pop();
        Some(false)
    }),
    ("a fetched answer and its probe's result missing at the end", "result missing at the end", |end| {
        end.probe_finished()?;
        let kept = end.entries().len() - 2;
        end.entries().truncate(kept);
        Some(false)
    }),
    ("an acknowledge's result missing at the end", "result missing at the end", |end| {
        end.acknowledge(true)?;
        end.entries().pop();
        Some(false)
    }),
    ("a probe's result missing before a received entry", "result awaited, entry not sent", |end| {
        end.probe_unknown()?;
        end.entries().pop();
        end.put_entry(Logged::new(RECEIVED, &[0xA4, 0x00]))
    }),
    ("a probe's result said to be received", "result awaited, entry not sent", |end| {
        end.probe_running()?;
        end.entries().last_mut()?.kind = RECEIVED;
        Some(true)
    }),
    ("a forget before an acknowledge's result", "result awaited, entry not sent", |end| {
        end.acknowledge(false)?;
        end.put_before_last(Logged::forget(0, 5))
    }),
    ("finished in the place of running", "result awaited, other octets", |end| {
        end.probe_running()?;
        *end.entries().last_mut()?.octets.last_mut()? = 1;
        Some(true)
    }),
    ("unknown in the place of finished", "result awaited, other octets", |end| {
        end.probe_finished()?;
        let result = end.entries().len() - 2;
        *end.entries()[result].octets.last_mut()? = 2;
        Some(true)
    }),
    ("unknown in the place of acknowledged", "result awaited, other octets", |end| {
        end.acknowledge(true)?;
        *end.entries().last_mut()?.octets.last_mut()? = 1;
        Some(true)
    }),
    ("acknowledged in the place of unknown", "result awaited, other octets", |end| {
        end.acknowledge(false)?;
        *end.entries().last_mut()?.octets.last_mut()? = 0;
        Some(true)
    }),
    ("a probe's result in long form", "result awaited, other octets", |end| {
        end.probe_unknown()?;
        reframe(end.entries().last_mut()?, |identifier, contents| element_in_form(identifier, contents, 1))
    }),
    ("a probe's result of indefinite length", "result awaited, other octets", |end| {
        end.probe_unknown()?;
        reframe(end.entries().last_mut()?, indefinite)
    }),
    ("a probe's result and the fetched answer in one entry", "result awaited, other octets", |end| {
        end.probe_finished()?;
        let kept = end.entries().pop()?;
        end.entries().last_mut()?.octets.extend(kept.octets);
        Some(true)
    }),
    ("a fetched answer without its probe's result", "result awaited, other octets", |end| {
        end.probe_finished()?;
        let result = end.entries().len() - 2;
        end.entries().remove(result);
        Some(true)
    }),
    ("a fetched answer before its probe's result", "result awaited, other octets", |end| {
        end.probe_finished()?;
        let result = end.entries().len() - 2;
        end.entries().swap(result, result + 1);
        Some(true)
    }),
    ("a fetched answer missing at the end", "kept answer missing at the end", |end| {
        end.probe_finished()?;
        end.entries().pop();
        Some(false)
    }),
    ("a fetched answer missing before a received entry", "kept answer awaited, entry not sent", |end| {
        end.probe_finished()?;
        end.entries().pop();
        end.put_entry(Logged::new(RECEIVED, &[0xA4, 0x00]))
    }),
    ("a fetched answer said to be received", "kept answer awaited, entry not sent", |end| {
        end.probe_finished()?;
        end.entries().last_mut()?.kind = RECEIVED;
        Some(true)
    }),
    ("a forget before a fetched answer", "kept answer awaited, entry not sent", |end| {
        end.probe_finished()?;
        end.put_before_last(Logged::forget(1, 5))
    }),
    ("a fetched answer with another octet", "kept answer awaited, other octets", |end| {
        end.probe_finished()?;
        *end.entries().last_mut()?.octets.last_mut()? ^= 1;
        Some(true)
    }),
    ("a fetched answer in long form", "kept answer awaited, other octets", |end| {
        end.probe_finished()?;
        reframe(end.entries().last_mut()?, |identifier, contents| element_in_form(identifier, contents, 4))
    }),
    ("a fetched answer and an octet behind it", "kept answer awaited, other octets", |end| {
        end.probe_finished()?;
        end.entries().last_mut()?.octets.push(0);
        Some(true)
    }),
    ("another answer in the place of the fetched one", "kept answer awaited, other octets", |end| {
        end.probe_finished()?;
        end.entries().last_mut()?.octets = vec![0xA2, 0x03, 0x02, 0x01, 0x7F];
        Some(true)
    }),
    ("a fetched result twice", "result refused 11", |end| {
        end.probe_finished()?;
        let kept = end.entries().last()?.clone();
        (kept.octets[0] == apdu::RESULT).then(|| end.put_entry(kept))?
    }),
    ("a probe's result that nobody asked for", "result refused 11", |end| {
        end.probe_unknown()?;
        let result = end.entries().last()?.clone();
        end.put_entry(result)
    }),
    ("an answer fetched that an acknowledge dropped", "result awaited, other octets", |end| {
        let id = end.kept_id()?;
        end.arrive_anew(PROBE, id)?;
        let kept = end.entries().last()?.clone();
        end.arrive_anew(ACKNOWLEDGE, id)?;
        end.arrive_anew(PROBE, id)?;
        *end.entries().last_mut()?.octets.last_mut()? = 1;
        end.put_entry(kept)
    }),
];

/// Gives an APDU that fills an entry another length form.
fn reframe(entry: &mut Logged, frame: impl Fn(u8, &[u8]) -> Vec<u8>) -> Option<bool> {
    let contents = octets::split(&entry.octets, State::LEVELS)?.0.contents().to_vec();
    entry.octets = frame(entry.octets[0], &contents);
    Some(true)
}

impl Generator<'_> {
    /// A probe or acknowledge about an id, whose own id nothing has, if the table has it.
    fn arrive_anew(&mut self, code: i32, asked: i32) -> Option<()> {
        self.model.operation(Code::Local(code))?;
        let State { peer, kept, .. } = &self.drive.state;
        let taken = |id| id == asked || peer.find(id).is_some() || kept.find(id).is_some();
        let id = self.random.number_unless(taken);
        self.arrive_probe(id, code, asked);
        Some(())
    }

    pub(crate) fn kept_id(&mut self) -> Option<i32> {
        self.random.pick(self.drive.state.kept.ids())
    }

    fn probe_running(&mut self) -> Option<()> {
        let id = self.random.pick(self.drive.state.peer.live())?.id;
        self.arrive_anew(PROBE, id)
    }

    fn probe_finished(&mut self) -> Option<()> {
        let id = self.kept_id()?;
        self.arrive_anew(PROBE, id)
    }

    fn probe_unknown(&mut self) -> Option<()> {
        let State { peer, kept, .. } = &self.drive.state;
        let id = self.random.number_unless(|id| peer.find(id).is_some() || kept.find(id).is_some());
        self.arrive_anew(PROBE, id)
    }

    /// An acknowledge of a kept answer, or of an id that has none.
    fn acknowledge(&mut self, known: bool) -> Option<()> {
        let kept = &self.drive.state.kept;
        let other = self.random.number_unless(|id| kept.find(id).is_some());
        let id = if known { self.kept_id()? } else { other };
        self.arrive_anew(ACKNOWLEDGE, id)
    }

    /// Answers until eight are kept, and a probe of the oldest of them.
    pub(crate) fn probe_the_oldest(&mut self) {
        for _ in 0..60 {
            if usize::from(self.drive.state.kept.count) == State::KEPT {
                let oldest = self.drive.state.kept.ids[0];
                self.arrive_anew(PROBE, oldest);
                return;
            }
            self.probe_day(1);
        }
    }

    /// Answers that are kept, probes and acknowledges about them, and some that find nothing.
    pub(crate) fn probe_day(&mut self, rounds: usize) {
        self.trouble = 0;
        for _ in 0..rounds {
            let fits = |row: &OperationRow| matches!(row.class, 1 | 2 | 4) && !probe::is_answered_here(&row.code);
            let Some(row) = self.random.pick_where(&self.model.operations, fits) else { return };
            let id = self.invoked_anew(row);
            if self.random.percent(25) {
                self.arrive_anew(PROBE, id);
            }
            let octets = [None, None, None, Some(OCTETS), Some(OCTETS + 1)][self.random.below(5)];
            let octets = octets.filter(|_| matches!(row.result, 0x04 | 0x30));
            self.give_result(id, row, octets);
            match self.random.below(8) {
                0 => {
                    self.arrive_anew(PROBE, id);
                    self.arrive_anew(PROBE, id);
                }
                1..=3 => drop(self.arrive_anew(PROBE, id)),
                4 => drop(self.acknowledge(true)),
                5 => drop(self.acknowledge(false)),
                6 => drop(self.probe_unknown()),
                _ => {}
            }
            if self.random.percent(10) {
                self.arrive_invoke(id, None, row);
            }
        }
    }
}
