//! Simulated peers: the other controllers of a yard, some of them liars.

use super::random::Random;
use super::rows::{Pool, fitting};
use crate::controller::{Controller, Heard};
use crate::rounds::Word;
use crate::sets::Group;

/// The yard around one controller.
#[derive(Clone, Debug)]
pub struct Peers {
    /// The place of the controller that the text tells of.
    me: usize,
    /// The reliable others at their places; nothing for liars and `me`.
    others: Vec<Option<Controller>>,
}

impl Peers {
    /// Peers for a controller that was just opened. A survivor set is
    /// reliable, the controller among it; all outside lie.
    pub fn new(rng: &mut Random, controller: &Controller) -> Peers {
        let table = controller.table();
        let reliable: &Group = rng.pick(table.sets());
        let me = *rng.pick(reliable);
        let others = (0..table.n())
            .map(|place| {
                if place == me || !reliable.contains(&place) {
                    return None;
                }
                let first = fitting(rng, controller.duty());
                Controller::open(table.clone(), controller.duty().clone(), first).ok()
            })
            .collect();
        Peers { me, others }
    }

    /// The row that a listener hears: liars may tell each another word.
    pub fn row(&self, rng: &mut Random, controller: &Controller, pool: &Pool) -> Vec<Word> {
        (0..self.others.len())
            .map(|place| match &self.others[place] {
                Some(other) => other.speak(),
                None if place == self.me => controller.speak(),
                None => pool.lie(rng),
            })
            .collect()
    }

    /// All peers hear one round; `spoken` is what the reliable ones spoke.
    pub fn hear(&mut self, rng: &mut Random, spoken: &[Word], pool: &Pool) {
        for listener in 0..self.others.len() {
            let heard: Vec<Word> = (0..self.others.len())
                .map(|place| match &self.others[place] {
                    None if place != self.me => pool.lie(rng),
                    _ => spoken[place],
                })
                .collect();
            if let Some(other) = &mut self.others[listener]
                && let Ok(Heard::Closed(..)) = other.hear(&heard)
                && rng.chance(700)
            {
                let _ = other.offer(pool.value(rng));
            }
        }
    }
}
