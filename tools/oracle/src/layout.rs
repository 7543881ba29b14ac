//! Document 01's layouts: reading with the refusals 1, 6 to 9 and 14, and writing.

/// A refusal: its number and its place.
#[derive(Debug, Clone, Copy, PartialEq, Eq)]
pub struct Refusal {
    pub number: u8,
    pub place: u32,
}

pub fn refusal(number: u8) -> Refusal {
    Refusal { number, place: 0 }
}

fn refusal_at(number: u8, place: usize) -> Refusal {
    Refusal { number, place: place as u32 }
}

pub const ARRIVE: u8 = 0;
pub const CLEAR: u8 = 1;
pub const FAKE: u8 = 2;

/// An est record.
#[derive(Debug, Clone, Copy, PartialEq)]
pub struct Est {
    pub dist_to_next: f64,
    pub next: u32,
    pub alt: u32,
    pub prev: u32,
    pub prev_alt: u32,
    pub link: u32,
    pub kind: u8,
}

/// A path record.
#[derive(Debug, Clone, Copy, PartialEq)]
pub struct Node {
    pub offset: f64,
    pub time_pass: f64,
    pub link: u32,
    pub est: u32,
    pub auth: u16,
    pub kind: u8,
}

/// A diverge record. Its train has 16 bits in a narrow image, 32 in a wide one.
#[derive(Debug, Clone, Copy, PartialEq, Eq)]
pub struct Diverge {
    pub train: u32,
    pub node: u16,
}

/// One train: what an image holds.
#[derive(Debug, Clone, PartialEq)]
pub struct Train {
    pub wide: bool,
    pub est: Vec<Est>,
    pub path: Vec<Node>,
    pub div: Vec<Diverge>,
    pub div_room: usize,
    pub train: u16,
    pub fixed: u16,
    pub free: u16,
    pub front: u16,
    pub back: u16,
    pub dist_disp_path_search: f64,
    pub dist_fixed_max: f64,
}

// ---- little-endian fields

pub fn u16_at(b: &[u8], at: usize) -> u16 {
    u16::from_le_bytes([b[at], b[at + 1]])
}
pub fn u32_at(b: &[u8], at: usize) -> u32 {
    u32::from_le_bytes(b[at..at + 4].try_into().unwrap())
}
pub fn f64_at(b: &[u8], at: usize) -> f64 {
    f64::from_le_bytes(b[at..at + 8].try_into().unwrap())
}
pub fn put_u16(b: &mut [u8], at: usize, n: u16) {
    b[at..at + 2].copy_from_slice(&n.to_le_bytes());
}
pub fn put_u32(b: &mut [u8], at: usize, n: u32) {
    b[at..at + 4].copy_from_slice(&n.to_le_bytes());
}
pub fn put_f64(b: &mut [u8], at: usize, x: f64) {
    b[at..at + 8].copy_from_slice(&x.to_le_bytes());
}
fn zeros(b: &[u8]) -> bool {
    b.iter().all(|&x| x == 0)
}

// ---- sizes

pub const HEADER: usize = 64;
pub const RECORD: usize = 32;

pub fn path_offset(e: usize) -> usize {
    HEADER + RECORD * e
}
pub fn diverge_offset(e: usize) -> usize {
    HEADER + 2 * RECORD * e
}
/// Bytes of a diverge record.
pub fn diverge_size(wide: bool) -> usize {
    if wide {
        8
    } else {
        4
    }
}
/// The size of a narrow image.
pub fn image_size(e: usize, q: usize) -> usize {
    size_of_image(e, q, false)
}
pub fn size_of_image(e: usize, q: usize, wide: bool) -> usize {
    diverge_offset(e) + diverge_size(wide) * q
}
/// The byte of a header that says whether an image is wide; the spare ones follow it.
pub const WIDE: usize = 42;

/// An image, or what stands for one in a yard, is wide exactly if this byte is 1.
pub fn is_wide(b: &[u8]) -> bool {
    b.get(WIDE) == Some(&1)
}
pub fn est_count_ok(e: usize) -> bool {
    (1..=512).contains(&e)
}
pub fn diverge_room_ok(q: usize) -> bool {
    (2..=1_024).contains(&q)
}
pub fn link_count_ok(l: usize) -> bool {
    (2..=4_000).contains(&l)
}

// ---- records

fn est_at(b: &[u8]) -> Est {
    Est {
        dist_to_next: f64_at(b, 0),
        next: u32_at(b, 8),
        alt: u32_at(b, 12),
        prev: u32_at(b, 16),
        prev_alt: u32_at(b, 20),
        link: u32_at(b, 24),
        kind: b[28],
    }
}
fn node_at(b: &[u8]) -> Node {
    Node {
        offset: f64_at(b, 0),
        time_pass: f64_at(b, 8),
        link: u32_at(b, 16),
        est: u32_at(b, 20),
        auth: u16_at(b, 24),
        kind: b[26],
    }
}
pub fn put_est(b: &mut [u8], x: &Est) {
    put_f64(b, 0, x.dist_to_next);
    put_u32(b, 8, x.next);
    put_u32(b, 12, x.alt);
    put_u32(b, 16, x.prev);
    put_u32(b, 20, x.prev_alt);
    put_u32(b, 24, x.link);
    b[28] = x.kind;
    b[29..32].fill(0);
}
fn put_node(b: &mut [u8], x: &Node) {
    put_f64(b, 0, x.offset);
    put_f64(b, 8, x.time_pass);
    put_u32(b, 16, x.link);
    put_u32(b, 20, x.est);
    put_u16(b, 24, x.auth);
    b[26] = x.kind;
    b[27..32].fill(0);
}
pub fn est_bytes(est: &[Est]) -> Vec<u8> {
    let mut b = vec![0; RECORD * est.len()];
    for (r, x) in b.chunks_exact_mut(RECORD).zip(est) {
        put_est(r, x);
    }
    b
}

/// A type is known and the spare bytes are zero.
fn est_shape_ok(r: &[u8]) -> bool {
    r[28] <= FAKE && zeros(&r[29..])
}
fn node_shape_ok(r: &[u8]) -> bool {
    r[26] <= FAKE && zeros(&r[27..])
}

/// Est records by themselves, as lay out gets them; none where a type or a spare byte is wrong.
pub fn read_est(bytes: &[u8]) -> Option<Vec<Est>> {
    let records = bytes.chunks_exact(RECORD);
    records.clone().all(est_shape_ok).then(|| records.map(est_at).collect())
}

// ---- 6: header, size, type, spare byte, unused record

struct Sizes {
    wide: bool,
    e: usize,
    n: usize,
    m: usize,
    q: usize,
}

fn sizes_of(b: &[u8]) -> Option<Sizes> {
    if b.len() < HEADER {
        return None;
    }
    let at = |i: usize| u32_at(b, 4 * i) as usize;
    let (e, n, m, q) = (at(1), at(2), at(3), at(4));
    let wide = is_wide(b);
    let ok = est_count_ok(e)
        && (1..=e).contains(&n)
        && diverge_room_ok(q)
        && (2..=q).contains(&m)
        && at(0) == size_of_image(e, q, wide)
        && b.len() == size_of_image(e, q, wide)
        && at(5) == HEADER
        && at(6) == path_offset(e)
        && at(7) == diverge_offset(e)
        && u16_at(b, 32) != 0
        && b[WIDE] <= 1
        && zeros(&b[WIDE + 1..48]);
    ok.then_some(Sizes { wide, e, n, m, q })
}

/// None where a spare byte is not zero.
fn diverge_at(r: &[u8]) -> Option<Diverge> {
    match r.len() {
        4 => Some(Diverge { train: u16_at(r, 0) as u32, node: u16_at(r, 2) }),
        _ => zeros(&r[6..]).then(|| Diverge { train: u32_at(r, 0), node: u16_at(r, 4) }),
    }
}

fn records_of(b: &[u8], s: &Sizes) -> Option<Train> {
    let est_part = &b[HEADER..path_offset(s.e)];
    let path_part = &b[path_offset(s.e)..diverge_offset(s.e)];
    let div_part = &b[diverge_offset(s.e)..];
    let (path_used, path_rest) = path_part.split_at(RECORD * s.n);
    let record = diverge_size(s.wide);
    let (div_used, div_rest) = div_part.split_at(record * s.m);
    if !path_used.chunks_exact(RECORD).all(node_shape_ok) || !zeros(path_rest) || !zeros(div_rest) {
        return None;
    }
    Some(Train {
        wide: s.wide,
        est: read_est(est_part)?,
        path: path_used.chunks_exact(RECORD).map(node_at).collect(),
        div: div_used.chunks_exact(record).map(diverge_at).collect::<Option<_>>()?,
        div_room: s.q,
        train: u16_at(b, 32),
        fixed: u16_at(b, 34),
        free: u16_at(b, 36),
        front: u16_at(b, 38),
        back: u16_at(b, 40),
        dist_disp_path_search: f64_at(b, 48),
        dist_fixed_max: f64_at(b, 56),
    })
}

// ---- 7: values

fn finite(x: f64) -> bool {
    x.is_finite() && x.abs() <= 1e12
}
fn event_ok(kind: u8, link: u32, l: usize) -> bool {
    (link as usize) < l && !(kind == ARRIVE && link == 0)
}
fn est_value_ok(x: &Est, e: usize, l: usize) -> bool {
    finite(x.dist_to_next)
        && event_ok(x.kind, x.link, l)
        && [x.next, x.alt, x.prev, x.prev_alt].iter().all(|&i| (i as usize) < e)
}
fn node_value_ok(x: &Node, e: usize, l: usize) -> bool {
    finite(x.offset)
        && (finite(x.time_pass) || x.time_pass == f64::INFINITY)
        && event_ok(x.kind, x.link, l)
        && (x.est as usize) < e
}
fn setting_ok(x: f64) -> bool {
    finite(x) && x >= 0.0
}
pub fn settings_ok(search: f64, fixed_max: f64) -> bool {
    setting_ok(search) && setting_ok(fixed_max)
}
pub fn est_values(est: &[Est], l: usize) -> Result<(), Refusal> {
    match est.iter().position(|x| !est_value_ok(x, est.len(), l)) {
        Some(i) => Err(refusal_at(7, i)),
        None => Ok(()),
    }
}
fn values(t: &Train, l: usize) -> Result<(), Refusal> {
    est_values(&t.est, l)?;
    if let Some(i) = t.path.iter().position(|x| !node_value_ok(x, t.est.len(), l)) {
        return Err(refusal_at(7, i));
    }
    let n = t.path.len();
    let ok = settings_ok(t.dist_disp_path_search, t.dist_fixed_max)
        && [t.fixed, t.free].iter().all(|&i| i as usize <= n)
        && [t.front, t.back].iter().all(|&i| (i as usize) < n);
    if ok {
        Ok(())
    } else {
        Err(refusal(7))
    }
}

// ---- 8: cycles

fn steps(x: &Est) -> impl Iterator<Item = usize> {
    [x.next, x.alt].into_iter().filter(|&i| i != 0).map(|i| i as usize)
}

/// Can all records be taken away one by one, each after all that lead to it?
fn acyclic(est: &[Est]) -> bool {
    let mut leading = vec![0u32; est.len()];
    est.iter().flat_map(steps).for_each(|i| leading[i] += 1);
    let mut ready: Vec<usize> = (0..est.len()).filter(|&i| leading[i] == 0).collect();
    let mut taken = 0;
    while let Some(i) = ready.pop() {
        taken += 1;
        for j in steps(&est[i]) {
            leading[j] -= 1;
            if leading[j] == 0 {
                ready.push(j);
            }
        }
    }
    taken == est.len()
}

fn reaches_itself(est: &[Est], from: usize) -> bool {
    let mut seen = vec![false; est.len()];
    let mut open: Vec<usize> = steps(&est[from]).collect();
    while let Some(i) = open.pop() {
        if i == from {
            return true;
        }
        if !std::mem::replace(&mut seen[i], true) {
            open.extend(steps(&est[i]));
        }
    }
    false
}

pub fn cycles(est: &[Est]) -> Result<(), Refusal> {
    if acyclic(est) {
        return Ok(());
    }
    let i = (0..est.len()).find(|&i| reaches_itself(est, i)).unwrap();
    Err(refusal_at(8, i))
}

// ---- 9: the path and the diverge nodes

fn is_step(from: &Est, to: u32) -> bool {
    to != 0 && (from.next == to || from.alt == to)
}

/// The index of the first node whose Arrive link came before.
pub fn repeated_arrive(path: &[Node], l: usize) -> Option<usize> {
    let mut seen = vec![false; l];
    path.iter().position(|x| x.kind == ARRIVE && std::mem::replace(&mut seen[x.link as usize], true))
}

fn path_fault(t: &Train, l: usize) -> Option<usize> {
    let n = t.path.len();
    let start = (t.path[0].est != 0).then_some(0);
    let step = (1..n).find(|&i| !is_step(&t.est[t.path[i - 1].est as usize], t.path[i].est));
    let end = (t.est[t.path[n - 1].est as usize].next != 0).then_some(n - 1);
    [start, step, end, repeated_arrive(&t.path, l)].into_iter().flatten().min()
}

fn diverge_fault(t: &Train) -> Option<usize> {
    let (m, n) = (t.div.len(), t.path.len());
    (0..m).find(|&i| {
        let d = t.div[i];
        if i == 0 {
            d != Diverge { train: 0, node: 0 }
        } else if i == m - 1 {
            d.node as usize != n
        } else {
            d.train == 0 || d.node == 0 || d.node as usize >= n || d.node < t.div[i - 1].node
        }
    })
}

fn order(t: &Train, l: usize) -> Result<(), Refusal> {
    match path_fault(t, l).or_else(|| diverge_fault(t)) {
        Some(i) => Err(refusal_at(9, i)),
        None => Ok(()),
    }
}

// ---- images

/// The largest train of a wide image and of the occupancy beside it.
pub const MOST_TRAIN: u32 = 999_999;

/// What is laid out as an image, wide or narrow: 6.
pub fn laid_out(b: &[u8]) -> Result<Train, Refusal> {
    sizes_of(b).and_then(|s| records_of(b, &s)).ok_or(refusal(6))
}

/// 7, then 22 of a diverge record's train, 8, 9.
pub fn judged(t: &Train, l: usize) -> Result<(), Refusal> {
    values(t, l)?;
    if let Some(i) = t.div.iter().position(|d| d.train > MOST_TRAIN) {
        return Err(refusal_at(22, i));
    }
    cycles(&t.est)?;
    order(t, l)
}

/// Reads an image of either width for L links: 6, 7, 22, 8, 9.
pub fn read_any(b: &[u8], l: usize) -> Result<Train, Refusal> {
    let t = laid_out(b)?;
    judged(&t, l)?;
    Ok(t)
}

/// Reads a narrow image for L links: 6, 7, 8, 9.
pub fn read_image(b: &[u8], l: usize) -> Result<Train, Refusal> {
    if is_wide(b) {
        return Err(refusal(6));
    }
    read_any(b, l)
}

/// Writes an image into a buffer of its size.
pub fn write_image(t: &Train, b: &mut [u8]) {
    let e = t.est.len();
    let size = size_of_image(e, t.div_room, t.wide);
    assert!(t.path.len() <= e && t.div.len() <= t.div_room && b.len() == size);
    b.fill(0);
    b[WIDE] = t.wide as u8;
    let head = [b.len(), e, t.path.len(), t.div.len(), t.div_room, HEADER, path_offset(e), diverge_offset(e)];
    for (i, n) in head.into_iter().enumerate() {
        put_u32(b, 4 * i, n as u32);
    }
    for (i, n) in [t.train, t.fixed, t.free, t.front, t.back].into_iter().enumerate() {
        put_u16(b, 32 + 2 * i, n);
    }
    put_f64(b, 48, t.dist_disp_path_search);
    put_f64(b, 56, t.dist_fixed_max);
    for (i, x) in t.est.iter().enumerate() {
        put_est(&mut b[HEADER + RECORD * i..][..RECORD], x);
    }
    for (i, x) in t.path.iter().enumerate() {
        put_node(&mut b[path_offset(e) + RECORD * i..][..RECORD], x);
    }
    let records = b[diverge_offset(e)..].chunks_exact_mut(diverge_size(t.wide));
    for (r, d) in records.zip(&t.div) {
        if t.wide {
            put_u32(r, 0, d.train);
            put_u16(r, 4, d.node);
        } else {
            put_u16(r, 0, u16::try_from(d.train).expect("a train of 16 bits"));
            put_u16(r, 2, d.node);
        }
    }
}

pub fn image_of(t: &Train) -> Vec<u8> {
    let mut b = vec![0; size_of_image(t.est.len(), t.div_room, t.wide)];
    write_image(t, &mut b);
    b
}

// ---- the link table (1)

/// One link: its flip and its lockouts.
#[derive(Debug, Clone, Default, PartialEq)]
pub struct LinkRecord {
    pub flip: u32,
    pub lockouts: Vec<u32>,
}

pub fn read_table(b: &[u8]) -> Option<Vec<LinkRecord>> {
    if b.len() < 16 {
        return None;
    }
    let (size, l, k, at) = (u32_at(b, 0), u32_at(b, 4), u32_at(b, 8), u32_at(b, 12));
    let (l, k) = (l as usize, k as usize);
    if !link_count_ok(l) || k > 4_096 || at as usize != 16 + 12 * l {
        return None;
    }
    if b.len() != 16 + 12 * l + 4 * k || size as usize != b.len() {
        return None;
    }
    let lockouts: Vec<u32> = b[at as usize..].chunks_exact(4).map(|r| u32_at(r, 0)).collect();
    if lockouts.iter().any(|&x| x as usize >= l) {
        return None;
    }
    b[16..at as usize].chunks_exact(12).map(|r| link_of(r, l, &lockouts)).collect()
}

fn link_of(r: &[u8], l: usize, lockouts: &[u32]) -> Option<LinkRecord> {
    let (flip, start, count) = (u32_at(r, 0), u32_at(r, 4) as usize, u32_at(r, 8) as usize);
    let list = lockouts.get(start..start + count)?;
    ((flip as usize) < l).then(|| LinkRecord { flip, lockouts: list.to_vec() })
}

/// Writes a table whose lockouts lie one list behind the other.
pub fn table_of(links: &[LinkRecord]) -> Vec<u8> {
    let k: usize = links.iter().map(|x| x.lockouts.len()).sum();
    let at = 16 + 12 * links.len();
    let mut b = vec![0; at + 4 * k];
    let size = b.len();
    for (i, n) in [size, links.len(), k, at].into_iter().enumerate() {
        put_u32(&mut b, 4 * i, n as u32);
    }
    let mut start = 0;
    for (i, x) in links.iter().enumerate() {
        for (j, n) in [x.flip, start as u32, x.lockouts.len() as u32].into_iter().enumerate() {
            put_u32(&mut b, 16 + 12 * i + 4 * j, n);
        }
        for &y in &x.lockouts {
            put_u32(&mut b, at + 4 * start, y);
            start += 1;
        }
    }
    b
}

// ---- the yard (14)

/// The part of each slot.
pub fn read_yard(b: &[u8]) -> Option<Vec<std::ops::Range<usize>>> {
    if b.len() < 8 || u32_at(b, 0) as usize != b.len() {
        return None;
    }
    let s = u32_at(b, 4) as usize;
    if !(1..=63).contains(&s) || b.len() < 8 + 4 * s {
        return None;
    }
    let mut ends: Vec<usize> = (0..s).map(|i| u32_at(b, 8 + 4 * i) as usize).collect();
    ends.push(b.len());
    if ends[0] != 8 + 4 * s || ends.windows(2).any(|w| w[0] + 64 > w[1]) {
        return None;
    }
    let parts: Vec<_> = ends.windows(2).map(|w| w[0]..w[1]).collect();
    let trains_ok = parts.iter().enumerate().all(|(i, p)| u16_at(b, p.start + 32) as usize == i + 1);
    trains_ok.then_some(parts)
}

pub fn yard_of(images: &[Vec<u8>]) -> Vec<u8> {
    let mut b = vec![0; 8 + 4 * images.len()];
    put_u32(&mut b, 4, images.len() as u32);
    for (i, image) in images.iter().enumerate() {
        let at = b.len() as u32;
        put_u32(&mut b, 8 + 4 * i, at);
        b.extend_from_slice(image);
    }
    let size = b.len() as u32;
    put_u32(&mut b, 0, size);
    b
}

// ---- the bundle of the sheet (17)

pub struct Bundle<'a> {
    pub occupancy: Vec<u16>,
    pub blocking: Vec<u32>,
    pub yard: &'a [u8],
    pub moved: u16,
    pub begin: u16,
    pub limit: u16,
    pub local: bool,
}

const BUNDLE_HEADER: u64 = 32;

pub fn read_bundle(b: &[u8]) -> Option<Bundle<'_>> {
    if b.len() > 65_536 || b.len() < BUNDLE_HEADER as usize || u32_at(b, 0) as usize != b.len() {
        return None;
    }
    let at = |i: usize| u32_at(b, 4 * i) as u64;
    let (occ, occ_count, block, block_count, yard) = (at(1), at(2), at(3), at(4), at(5));
    let follow = occ == BUNDLE_HEADER && block == occ + 2 * occ_count && yard == block + 4 * block_count;
    if !follow || yard > b.len() as u64 || u16_at(b, 30) > 1 {
        return None;
    }
    Some(Bundle {
        occupancy: u16s(&b[occ as usize..block as usize]),
        blocking: u32s(&b[block as usize..yard as usize]),
        yard: &b[yard as usize..],
        moved: u16_at(b, 24),
        begin: u16_at(b, 26),
        limit: u16_at(b, 28),
        local: u16_at(b, 30) == 1,
    })
}

pub fn bundle_of(x: &Bundle) -> Vec<u8> {
    let block = BUNDLE_HEADER as usize + 2 * x.occupancy.len();
    let yard = block + 4 * x.blocking.len();
    let mut b = vec![0; BUNDLE_HEADER as usize];
    let head =
        [yard + x.yard.len(), BUNDLE_HEADER as usize, x.occupancy.len(), block, x.blocking.len(), yard];
    for (i, n) in head.into_iter().enumerate() {
        put_u32(&mut b, 4 * i, n as u32);
    }
    for (i, n) in [x.moved, x.begin, x.limit, x.local as u16].into_iter().enumerate() {
        put_u16(&mut b, 24 + 2 * i, n);
    }
    b.extend(u16_bytes(&x.occupancy));
    b.extend(u32_bytes(&x.blocking));
    b.extend(x.yard);
    b
}

// ---- lists of numbers as bytes

pub fn u16s(b: &[u8]) -> Vec<u16> {
    b.chunks_exact(2).map(|r| u16_at(r, 0)).collect()
}
pub fn u32s(b: &[u8]) -> Vec<u32> {
    b.chunks_exact(4).map(|r| u32_at(r, 0)).collect()
}
pub fn u64s(b: &[u8]) -> Vec<u64> {
    b.chunks_exact(8).map(|r| u64::from_le_bytes(r.try_into().unwrap())).collect()
}
pub fn u16_bytes(xs: &[u16]) -> Vec<u8> {
    xs.iter().flat_map(|x| x.to_le_bytes()).collect()
}
pub fn u32_bytes(xs: &[u32]) -> Vec<u8> {
    xs.iter().flat_map(|x| x.to_le_bytes()).collect()
}
pub fn u64_bytes(xs: &[u64]) -> Vec<u8> {
    xs.iter().flat_map(|x| x.to_le_bytes()).collect()
}
