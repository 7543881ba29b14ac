//! The lesson game of a closer against a dispatcher.

use crate::Refusal;

/// What is played over besides the train's image.
#[derive(Clone, Copy, Debug)]
pub struct Game<'a> {
    /// One train for each link, 0 for an empty one.
    pub occupancy: &'a [u32],
    pub moved: u32,
    pub local: bool,
    /// The round limit of the final update.
    pub limit: u16,
    /// The links that the closer may close, up to [`layout::MAX_GAME_LINKS`](crate::layout::MAX_GAME_LINKS), none twice.
    pub links: &'a [u32],
    /// Up to [`layout::MAX_TURNS`](crate::layout::MAX_TURNS).
    pub turns: u32,
}

/// Can the closer force the train's final update to end Blocked, whatever the dispatcher answers? All links start open; at each
/// turn the closer closes up to two of them, then the dispatcher opens a closed one or passes. At the end the closed links are held
/// by the moved train and are the blocking list. The image may be narrow or wide. Nothing is written. Refused as an update with no
/// blocking list, 22 where the image cannot hold a train that is given, then by 28.
pub fn closer_can_force(image: &[u8], game: Game) -> Result<bool, Refusal> {
    let (g, mut words) = (game, [0]);
    Refusal::of(call!(lavtoeu_closer_can_force, &image, &g.occupancy, g.moved, g.local as u32, g.limit, &g.links, g.turns, &mut words))?;
    Ok(words[0] != 0)
}
