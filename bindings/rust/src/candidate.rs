//! A candidate's hand on a sitting (change request Q-11): the train of one slot, and nothing else of the yard.

use crate::image::{node_from, Node};
use crate::{layout, Refusal};

/// What a candidate sees at a node of their path.
#[derive(Clone, Copy, Debug, PartialEq, Eq)]
pub struct View {
    /// The bytes of the path record.
    pub record: [u8; layout::PATH_RECORD],
    /// It is an Arrive, and some train holds its link, be it the candidate's own.
    pub taken: bool,
}

impl View {
    /// The record as a path node.
    pub fn node(&self) -> Node {
        node_from(&self.record, 0)
    }
}

/// The candidate of a slot. An examiner makes it over a table, an occupancy of u32 entries and a yard, and lends it to the
/// candidate's program: that can look at the nodes of its train's path and mark or release the links at which the path arrives.
/// It has no way to the buffers, to other slots or to other links.
///
/// Every call is refused by 1, 2, 22, 14, 26, 27, in this order, and changes nothing then.
///
/// ```
/// use lavtoeu::*;
///
/// // Links 1 and 2 are one track in its two directions; the train of slot 1 arrives at link 1.
/// let table = table(&[0, 2, 1].map(|flip| Link { flip, lockouts: vec![] }));
/// let mut image = vec![0; image_size(1, 2)];
/// let est = est_bytes(&[Est { est_type: EstType::Arrive, link: 1, ..Est::default() }]);
/// lay_out(&est, Order { train: 1, search: 0.0, fixed: 0.0, room: 2, links: 3 }, &mut image)?;
/// let (yard, mut occupancy) = (yard(&[&image]), [0, 9, 0]);
/// let mut candidate = Candidate::new(&table, &mut occupancy, &yard, 1);
/// assert!(candidate.view(0)?.taken);
/// assert_eq!(candidate.view(0)?.node().link, 1);
/// assert_eq!(candidate.view(1), Err(Refusal { number: 27, place: 0 }));
/// candidate.mark(1)?;
/// assert_eq!(candidate.mark(2), Err(Refusal { number: 27, place: 0 }));
/// assert_eq!(occupancy, [0, 9, 1]);
/// # Ok::<(), Refusal>(())
/// ```
///
/// The occupancy is not to be seen through it:
///
/// ```compile_fail,E0616
/// # use lavtoeu::Candidate;
/// fn peek(candidate: &Candidate) -> u32 {
///     candidate.occupancy[2]
/// }
/// ```
pub struct Candidate<'a> {
    table: &'a [u8],
    occupancy: &'a mut [u32],
    yard: &'a [u8],
    slot: u16,
}

impl<'a> Candidate<'a> {
    pub fn new(table: &'a [u8], occupancy: &'a mut [u32], yard: &'a [u8], slot: u16) -> Candidate<'a> {
        Candidate { table, occupancy, yard, slot }
    }

    /// The path record of a node, counted from 0, and whether its link is taken.
    pub fn view(&self, node: u32) -> Result<View, Refusal> {
        let (mut record, mut words) = ([0; layout::PATH_RECORD], [0]);
        Refusal::of(call!(lavtoeu_view, &self.table, &self.occupancy, &self.yard, self.slot, node, &mut record, &mut words))?;
        Ok(View { record, taken: words[0] != 0 })
    }

    /// Marks a link at which the path arrives, for the train of the slot.
    pub fn mark(&mut self, link: u32) -> Result<(), Refusal> {
        self.act(link, 1)
    }

    /// Releases a link at which the path arrives, whoever holds it.
    pub fn release(&mut self, link: u32) -> Result<(), Refusal> {
        self.act(link, 0)
    }

    fn act(&mut self, link: u32, marks: u32) -> Result<(), Refusal> {
        Refusal::of(call!(lavtoeu_act, &self.table, &mut self.occupancy, &self.yard, self.slot, link, marks))
    }
}
