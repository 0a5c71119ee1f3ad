//! The newest checkpoint: question 6, and the tariff and the scores of question 7.

use super::{fault, Survey};
use crate::account::Tariff;
use crate::page::{score_start, Checkpoint, Content, Score, TARIFF_START};
use crate::refusal::{Byte, Fault, Place, Refusal};

/// The newest checkpoint of a pool that passed question 6.
pub(super) struct NewestCheckpoint {
    tariff: [u32; 8],
    /// The score of each node below the count, and where it stands.
    pub scores: Vec<(u32, Byte)>,
    pub pages: Vec<usize>,
}

impl Survey {
    /// How many nodes the newest checkpoint counts, if it is whole.
    pub fn count(&self) -> Option<usize> {
        self.newest_checkpoint(&mut Vec::new()).map(|checkpoint| checkpoint.scores.len())
    }

    /// Question 6: the newest pages, back to the newest tariff, form a whole checkpoint.
    pub(super) fn newest_checkpoint(&self, faults: &mut Vec<Fault>) -> Option<NewestCheckpoint> {
        let found = faults.len();
        let Some((newest, _)) = self.newest() else {
            faults.push(fault(Refusal::Checkpoint, Place::Pool, "no page that checks"));
            return None;
        };
        let mut checkpoint = CheckpointPages::default();
        for (page, decoded) in self.pages.iter().rev() {
            let mut refused = |why| faults.push(fault(Refusal::Checkpoint, Place::Page(*page), why));
            let Content::Checkpoint(content) = &decoded.content else {
                refused("no checkpoint page among the newest");
                return None;
            };
            if content.count.is_some() != (*page == newest) {
                refused("the count is not on the newest page alone");
            }
            checkpoint.add(*page, content);
            if let Some(tariff) = content.tariff {
                let scores = checkpoint.scores_by_id(faults).filter(|_| faults.len() == found)?;
                return Some(NewestCheckpoint { tariff, scores, pages: checkpoint.pages });
            }
        }
        faults.push(fault(Refusal::Checkpoint, Place::Pool, "no tariff"));
        None
    }
}

impl NewestCheckpoint {
    /// The tariff, if it is in range; and every score is below its limit.
    pub fn check_tariff(&self, faults: &mut Vec<Fault>) -> Option<Tariff> {
        let mut refused = |at, why| faults.push(fault(Refusal::Tree, at, why));
        let Some(tariff) = Tariff::from_numbers(self.tariff) else {
            // The first page was read last.
            let page = self.pages.last().copied().unwrap_or_default();
            refused(Place::Byte(Byte { page, byte: TARIFF_START }), "the tariff is out of range");
            return None;
        };
        for (id, (_, at)) in self.scores.iter().enumerate().filter(|(_, (score, _))| *score >= tariff.limit()) {
            refused(Place::Node(id, Some(*at)), "a score at the limit or above");
        }
        Some(tariff)
    }
}

/// The pages of a checkpoint as they are read, newest first.
#[derive(Default)]
struct CheckpointPages {
    count: Option<u16>,
    /// Each score, and where it stands.
    scores: Vec<(Score, Byte)>,
    pages: Vec<usize>,
}

impl CheckpointPages {
    fn add(&mut self, page: usize, content: &Checkpoint) {
        self.count = self.count.or(content.count);
        let first = content.tariff.is_some();
        let at = |place: usize| Byte { page, byte: score_start(first, place) };
        self.scores.extend(content.scores.iter().enumerate().map(|(place, score)| (*score, at(place))));
        self.pages.push(page);
    }

    /// The score of each id below the count, each given once and no other.
    fn scores_by_id(&self, faults: &mut Vec<Fault>) -> Option<Vec<(u32, Byte)>> {
        let mut refused = |at, why| faults.push(fault(Refusal::Checkpoint, at, why));
        let count = usize::from(self.count?);
        let mut by_id = vec![None; count];
        for (Score { id, score }, at) in &self.scores {
            match by_id.get_mut(usize::from(*id)) {
                None => refused(Place::Byte(*at), "a score of an id at or above the count"),
                Some(Some(_)) => refused(Place::Byte(*at), "two scores of one id"),
                Some(place) => *place = Some((*score, *at)),
            }
        }
        for id in (0..count).filter(|&id| by_id[id].is_none()) {
            refused(Place::Node(id, None), "an id without a score");
        }
        by_id.into_iter().collect()
    }
}
