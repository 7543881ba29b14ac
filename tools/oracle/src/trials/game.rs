//! the verdict against every strategy. A strategy names a closing for each list of answers given so far; it wins where the
//! train ends Blocked after every list of answers, an answer being to pass or to open one of the links.

use super::Failed;
use crate::game::{blocked, by_recursion, closer_can_force, closings};
use crate::rng::Rng;
use crate::wide_calls::game_case;
use std::collections::BTreeMap;

#[derive(Default)]
struct Games {
    games: u64,
    yes: u64,
    enumerated: u64,
    enumerated_yes: u64,
    strategies: u64,
    /// Games with closed links after which the train is Blocked, and with one more link closed is not.
    saved_by_one_more: u64,
    /// Games by links, turns and verdict.
    sizes: BTreeMap<(usize, u32), [u64; 2]>,
    refused: BTreeMap<u8, u64>,
    failed: Failed,
}

/// Plays of one strategy: `plan[k]` is the closing after the answers whose number is k, 1 and the digits of the answers in base n + 1.
fn wins(plan: &BTreeMap<u64, usize>, n: usize, turns: u32, won: &[bool]) -> bool {
    fn play(
        plan: &BTreeMap<u64, usize>,
        n: usize,
        turns: u32,
        won: &[bool],
        closed: usize,
        answers: u64,
    ) -> bool {
        if turns == 0 {
            return won[closed];
        }
        let closed = closed | plan[&answers];
        (0..=n).all(|answer| {
            // answer n is to pass; to open an open link changes nothing
            let left = if answer == n { closed } else { closed & !(1 << answer) };
            play(plan, n, turns - 1, won, left, answers * (n as u64 + 1) + answer as u64)
        })
    }
    play(plan, n, turns, won, 0, 1)
}

/// Every list of fewer answers than turns, by its number.
fn histories(n: usize, turns: u32) -> Vec<u64> {
    let mut all = vec![];
    let mut last = vec![1u64];
    for _ in 0..turns {
        all.extend(&last);
        last = last.iter().flat_map(|h| (0..=n as u64).map(move |a| h * (n as u64 + 1) + a)).collect();
    }
    all
}

impl Games {
    /// Tries strategies one after the other until one wins; all of them where none does.
    fn any_wins(&mut self, n: usize, turns: u32, won: &[bool]) -> bool {
        let (histories, closings) = (histories(n, turns), closings(n));
        let mut chosen = vec![0; histories.len()];
        loop {
            let plan = histories.iter().zip(&chosen).map(|(&h, &c): (_, &usize)| (h, closings[c])).collect();
            self.strategies += 1;
            if wins(&plan, n, turns, won) {
                return true;
            }
            let Some(at) = chosen.iter().position(|&c| c + 1 < closings.len()) else { return false };
            chosen[..at].fill(0);
            chosen[at] += 1;
        }
    }

    fn game(&mut self, rng: &mut Rng) {
        let c = game_case(rng);
        let (image, links, turns, g) = (c.image.clone(), c.links.clone(), c.turns, c.game());
        let verdict = closer_can_force(&image, &g);
        self.games += 1;
        let yes = match verdict {
            Ok(yes) => yes,
            Err(r) => return *self.refused.entry(r.number).or_default() += 1,
        };
        self.yes += yes as u64;
        self.sizes.entry((links.len(), turns)).or_default()[yes as usize] += 1;
        let n = links.len();
        if n <= 4 && turns <= 2 {
            self.failed.unless("by recursion", by_recursion(&image, &g) == yes, String::new);
        }
        let won: Vec<bool> = (0..1 << n).map(|closed| blocked(&image, &g, closed)).collect();
        let one_more = |s: usize| won[s] && (0..n).any(|i| !won[s | 1 << i]);
        self.saved_by_one_more += (0..1 << n).any(one_more) as u64;
        let most = [3, 3, 2, 2, 1, 1, 1, 1, 1][n];
        if turns <= most {
            self.enumerated += 1;
            self.enumerated_yes += yes as u64;
            let any = self.any_wins(n, turns, &won);
            self.failed
                .unless("a strategy wins just where the verdict is yes", any == yes, || format!("{g:?}"));
        }
    }
}

pub fn run(seed: u64, count: u64) -> bool {
    let (mut rng, mut g) = (Rng::new(seed), Games::default());
    while g.games < count {
        g.game(&mut rng);
    }
    println!("games {}, the closer can force it in {}", g.games, g.yes);
    for (number, n) in &g.refused {
        println!("refused {number}: {n}");
    }
    for ((links, turns), [no, yes]) in &g.sizes {
        println!("{links} links, {turns} turns: yes {yes}, no {no}");
    }
    println!(
        "games held against every strategy {}, yes in {}; strategies played {}",
        g.enumerated, g.enumerated_yes, g.strategies
    );
    println!("games in which closing one more link can save the train {}", g.saved_by_one_more);
    g.failed.print()
}
