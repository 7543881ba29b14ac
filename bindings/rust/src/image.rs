//! The image of one train as a value: the part of ALTRIOS's TrainDisp that the calls work on.

use crate::layout::*;
use crate::{est_bytes, image_size, is_wide, judge, lay_out, wide_image_size, Est, EstType, Order, Refusal};

/// A node of the path (DispNode).
#[derive(Clone, Copy, Debug, PartialEq)]
pub struct Node {
    pub est_type: EstType,
    pub link: u32,
    /// The number of its est record.
    pub est: u32,
    /// Where it lies along the path, in metres.
    pub offset: f64,
    /// When the train passed it, in seconds; +infinity where it has not.
    pub time_pass: f64,
    /// disp_auth_idx_entry.
    pub auth: u16,
}

impl Default for Node {
    fn default() -> Node {
        Node { est_type: EstType::Fake, link: 0, est: 0, offset: 0.0, time_pass: f64::INFINITY, auth: 0 }
    }
}

/// A diverge node (DivergeNode): at this path node the train left its shortest way for this train, at most 65,535 in a narrow image.
#[derive(Clone, Copy, Debug, Default, PartialEq, Eq)]
pub struct Diverge {
    pub train: u32,
    pub node: u16,
}

/// The image of one train. Of TrainDisp it has the fields that follow; the others are derived from them, or play no part in the
/// calls.
///
/// ```
/// use lavtoeu::{update, Est, EstType, Image, Move, Order, Status};
///
/// // Link 1 and then link 3, or round link 1 over link 2.
/// let fake = |next, alt| Est { next, alt, ..Est::default() };
/// let arrive = |link, next, prev| Est { est_type: EstType::Arrive, link, dist_to_next: 100.0, next, prev, ..Est::default() };
/// let ests = [fake(1, 2), arrive(1, 4, 0), fake(3, 0), arrive(2, 4, 2), Est { prev_alt: 3, ..arrive(3, 0, 1) }];
/// let order = Order { train: 1, search: 0.0, fixed: 0.0, room: 4, links: 4 };
/// let mut train = Image::new(&ests, order)?;
/// assert_eq!(train.path.iter().map(|node| node.est).collect::<Vec<_>>(), [0, 1, 4]);
///
/// // Fields are set and read as of any value; the calls take the bytes.
/// train.path[2].auth = 7;
/// let mut bytes = train.to_bytes()?;
/// let moved = Move { occupancy: &[0, 2, 0, 0], blocking: &[1], moved: 2, local: false, limit: 5 };
/// assert_eq!(update(&mut bytes, moved).status, Ok(Status::Success));
///
/// let after = Image::from_bytes(&bytes)?;
/// assert_eq!(after.path.iter().map(|node| node.est).collect::<Vec<_>>(), [0, 2, 3, 4]);
/// assert_eq!((after.path[3].offset, after.path[3].auth), (100.0, 7));
/// assert_eq!(after.ests, ests);
/// # Ok::<(), lavtoeu::Refusal>(())
/// ```
#[derive(Clone, Debug, PartialEq)]
pub struct Image {
    /// train_idx, not 0.
    pub train: u16,
    /// disp_node_idx_fixed, disp_node_idx_free, disp_node_idx_front, disp_node_idx_back.
    pub fixed: u16,
    pub free: u16,
    pub front: u16,
    pub back: u16,
    /// dist_disp_path_search, in metres.
    pub search: f64,
    /// dist_fixed_max, in metres.
    pub fixed_max: f64,
    /// est_times, 1 to 512.
    pub ests: Vec<Est>,
    /// disp_path: from 1 node to as many as there are est records.
    pub path: Vec<Node>,
    /// div_nodes: from 2 to `room`, the first (0, 0) and the last at the end of the path.
    pub diverges: Vec<Diverge>,
    /// Q, room for diverge nodes, 2 to 1,024. TrainDisp has no bound.
    pub room: u32,
    /// Is it a wide image, whose diverge records have 32 bits for a train?
    pub wide: bool,
}

impl Image {
    /// A new train, as [`lay_out`] makes it (TrainDisp::new). Refused as that is.
    pub fn new(ests: &[Est], order: Order) -> Result<Image, Refusal> {
        // A larger room is refused whatever the buffer's length is.
        let mut bytes = vec![0; image_size(ests.len(), MAX_ROOM.min(order.room as usize))];
        lay_out(&est_bytes(ests), order, &mut bytes)?;
        Image::from_bytes(&bytes)
    }

    /// The image in bytes, as [`update`](crate::update), or where it is wide [`update_wide`](crate::update_wide), [`judge`] and
    /// [`yard`](crate::yard) take it. Refused by 6 where the train is 0 or a list has another length than its field says, by 23
    /// where it is narrow and a train of its diverge nodes is above 65,535; 7 to 9 are left to [`judge`] and the calls.
    pub fn to_bytes(&self) -> Result<Vec<u8>, Refusal> {
        let (e, n, m, q) = (self.ests.len(), self.path.len(), self.diverges.len(), self.room as usize);
        let fits = (1..=MAX_ESTS).contains(&e) && (1..=e).contains(&n) && (2..=q).contains(&m) && q <= MAX_ROOM;
        if !fits || self.train == 0 {
            return Err(Refusal { number: 6, place: 0 });
        }
        if !self.wide && self.diverges.iter().any(|d| d.train as usize > MAX_NARROW_TRAIN) {
            return Err(Refusal { number: 23, place: 0 });
        }
        let size = if self.wide { wide_image_size(e, q) } else { image_size(e, q) };
        let path_at = IMAGE_HEADER + EST_RECORD * e;
        let diverge_at = path_at + PATH_RECORD * e;
        let mut out = vec![];
        put_words(&mut out, &[size, e, n, m, q, IMAGE_HEADER, path_at, diverge_at]);
        [self.train, self.fixed, self.free, self.front, self.back].iter().for_each(|x| out.extend(x.to_le_bytes()));
        out.extend([self.wide as u8, 0, 0, 0, 0, 0]);
        out.extend(self.search.to_le_bytes());
        out.extend(self.fixed_max.to_le_bytes());
        out.extend(est_bytes(&self.ests));
        self.path.iter().for_each(|x| put_node(&mut out, x));
        out.resize(diverge_at, 0);
        self.diverges.iter().for_each(|d| put_diverge(&mut out, d, self.wide));
        out.resize(size, 0);
        Ok(out)
    }

    /// The image that the bytes hold, of either width. Refused by 6 just where [`judge`] refuses them by 6; 7 to 9 are left to it
    /// and to the calls. [`Image::to_bytes`] gives the same bytes back.
    pub fn from_bytes(bytes: &[u8]) -> Result<Image, Refusal> {
        // The links play no part in 6.
        match judge(bytes, MAX_LINKS as u32) {
            Err(refusal) if refusal.number == 6 => return Err(refusal),
            _ => (),
        }
        let count = |at| word(bytes, at) as usize;
        let (e, n, m) = (count(4), count(8), count(12));
        let path_at = IMAGE_HEADER + EST_RECORD * e;
        let diverge_at = path_at + PATH_RECORD * e;
        let wide = is_wide(bytes);
        Ok(Image {
            train: half(bytes, 32),
            fixed: half(bytes, 34),
            free: half(bytes, 36),
            front: half(bytes, 38),
            back: half(bytes, 40),
            search: float(bytes, 48),
            fixed_max: float(bytes, 56),
            ests: (0..e).map(|i| est_from(bytes, IMAGE_HEADER + EST_RECORD * i)).collect(),
            path: (0..n).map(|i| node_from(bytes, path_at + PATH_RECORD * i)).collect(),
            diverges: (0..m).map(|i| diverge_from(bytes, diverge_at, i, wide)).collect(),
            room: word(bytes, 16),
            wide,
        })
    }
}

fn est_type(number: u8) -> EstType {
    match number {
        0 => EstType::Arrive,
        1 => EstType::Clear,
        _ => EstType::Fake,
    }
}

fn est_from(bytes: &[u8], at: usize) -> Est {
    Est {
        est_type: est_type(bytes[at + 28]),
        link: word(bytes, at + 24),
        dist_to_next: float(bytes, at),
        next: word(bytes, at + 8),
        alt: word(bytes, at + 12),
        prev: word(bytes, at + 16),
        prev_alt: word(bytes, at + 20),
    }
}

pub(crate) fn node_from(bytes: &[u8], at: usize) -> Node {
    Node {
        est_type: est_type(bytes[at + 26]),
        link: word(bytes, at + 16),
        est: word(bytes, at + 20),
        offset: float(bytes, at),
        time_pass: float(bytes, at + 8),
        auth: half(bytes, at + 24),
    }
}

fn put_node(out: &mut Vec<u8>, x: &Node) {
    out.extend(x.offset.to_le_bytes());
    out.extend(x.time_pass.to_le_bytes());
    out.extend(x.link.to_le_bytes());
    out.extend(x.est.to_le_bytes());
    out.extend(x.auth.to_le_bytes());
    out.extend([x.est_type as u8, 0, 0, 0, 0, 0]);
}

/// The train has 16 bits, in a wide image 32 and two spare bytes behind the node.
fn diverge_from(bytes: &[u8], first: usize, i: usize, wide: bool) -> Diverge {
    if wide {
        let at = first + WIDE_DIVERGE_RECORD * i;
        return Diverge { train: word(bytes, at), node: half(bytes, at + 4) };
    }
    let at = first + DIVERGE_RECORD * i;
    Diverge { train: half(bytes, at) as u32, node: half(bytes, at + 2) }
}

fn put_diverge(out: &mut Vec<u8>, d: &Diverge, wide: bool) {
    let train = d.train.to_le_bytes();
    out.extend(if wide { &train[..] } else { &train[..2] });
    out.extend(d.node.to_le_bytes());
    out.extend(if wide { &[0, 0][..] } else { &[] });
}
