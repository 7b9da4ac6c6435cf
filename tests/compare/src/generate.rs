//! Inputs made from a seed.

use std::cmp::Reverse;

/// xorshift64* by Marsaglia and Vigna.
pub struct Rng(u64);

impl Rng {
    pub fn new(seed: u64) -> Rng {
        let mut rng = Rng(seed.wrapping_mul(0x9e37_79b9_7f4a_7c15) | 1);
        for _ in 0..8 {
            rng.next();
        }
        rng
    }

    fn next(&mut self) -> u64 {
        self.0 ^= self.0 >> 12;
        self.0 ^= self.0 << 25;
        self.0 ^= self.0 >> 27;
        self.0.wrapping_mul(0x2545_f491_4f6c_dd1d)
    }

    /// A number below the bound.
    pub fn below(&mut self, bound: usize) -> usize {
        (((self.next() >> 32) * bound as u64) >> 32) as usize
    }

    /// A number from the first to the last, both included.
    pub fn from(&mut self, first: usize, last: usize) -> usize {
        first + self.below(last - first + 1)
    }

    pub fn percent(&mut self, chance: usize) -> bool {
        self.below(100) < chance
    }

    pub fn pick<T: Copy>(&mut self, of: &[T]) -> T {
        of[self.below(of.len())]
    }

    pub fn shuffle<T>(&mut self, list: &mut [T]) {
        for i in (1..list.len()).rev() {
            list.swap(i, self.below(i + 1));
        }
    }
}

/// A job count, mostly small.
pub fn job_count(rng: &mut Rng) -> usize {
    match rng.below(1000) {
        0..=719 => rng.from(1, 8),
        720..=939 => rng.from(9, 24),
        940..=989 => rng.from(25, 64),
        _ => rng.from(65, 128),
    }
}

/// So many jobs in any sequence.
pub fn any_jobs(rng: &mut Rng, count: usize) -> Vec<usize> {
    let mut jobs: Vec<usize> = (0..count).collect();
    rng.shuffle(&mut jobs);
    jobs
}

pub type Orders = Vec<(usize, usize)>;

/// A tree, plain or not.
#[derive(Clone)]
pub enum Shape {
    Leaf(usize),
    Group { side: bool, children: Vec<Shape> },
}

impl Shape {
    pub fn jobs(&self) -> Vec<usize> {
        match self {
            Shape::Leaf(job) => vec![*job],
            Shape::Group { children, .. } => children.iter().flat_map(Shape::jobs).collect(),
        }
    }

    pub fn smallest_job(&self) -> Option<usize> {
        self.jobs().into_iter().min()
    }

    /// How many side groups there are.
    pub fn sides(&self) -> usize {
        match self {
            Shape::Leaf(_) => 0,
            Shape::Group { side, children } => {
                *side as usize + children.iter().map(Shape::sides).sum::<usize>()
            }
        }
    }
}

/// How a shape's jobs are parted.
#[derive(Clone, Copy)]
struct Style {
    /// 0: two parts, 1: one job and the rest, 2: up to six parts, 3: any of
    /// these, single jobs included.
    parting: usize,
    /// Chance that a group in a group is of the other kind.
    other_kind: usize,
}

/// A tree on the jobs 0 to count - 1 in a shuffled order. With `alternating`
/// every group in a group is of the other kind.
pub fn shape(rng: &mut Rng, count: usize, alternating: bool) -> Shape {
    let mut jobs: Vec<usize> = (0..count).collect();
    if !rng.percent(10) {
        rng.shuffle(&mut jobs);
    }
    let other_kind = if alternating {
        100
    } else {
        rng.pick(&[50, 80, 100])
    };
    let style = Style {
        parting: rng.below(4),
        other_kind,
    };
    let side = rng.percent(50);
    shape_of(rng, &jobs, side, style)
}

fn shape_of(rng: &mut Rng, jobs: &[usize], side: bool, style: Style) -> Shape {
    if jobs.len() == 1 {
        return Shape::Leaf(jobs[0]);
    }
    let parting = if style.parting == 3 {
        rng.below(4)
    } else {
        style.parting
    };
    let mut cuts = match parting {
        0 => vec![rng.from(1, jobs.len() - 1)],
        1 => vec![if rng.percent(50) { 1 } else { jobs.len() - 1 }],
        2 => (0..rng.from(1, 5))
            .map(|_| rng.from(1, jobs.len() - 1))
            .collect(),
        _ => (1..jobs.len()).collect(),
    };
    cuts.extend([0, jobs.len()]);
    cuts.sort();
    cuts.dedup();
    let mut children = Vec::new();
    for ends in cuts.windows(2) {
        let kind = if rng.percent(style.other_kind) {
            !side
        } else {
            side
        };
        children.push(shape_of(rng, &jobs[ends[0]..ends[1]], kind, style));
    }
    Shape::Group { side, children }
}

/// Side children sorted so, all the way down.
fn sort_sides<K: Ord>(shape: &mut Shape, by: fn(&Shape) -> K) {
    if let Shape::Group { side, children } = shape {
        let each = children.iter_mut();
        each.for_each(|child| sort_sides(child, by));
        if *side {
            children.sort_by_cached_key(by);
        }
    }
}

/// The tree with its side children as the plain form has them: most jobs first, equal
/// ones by smallest job.
pub fn plain(mut shape: Shape) -> Shape {
    let by = |child: &Shape| (Reverse(child.jobs().len()), child.smallest_job());
    sort_sides(&mut shape, by);
    shape
}

/// The tree with its side children in the former order: by smallest job alone.
pub fn former(mut shape: Shape) -> Shape {
    sort_sides(&mut shape, Shape::smallest_job);
    shape
}

/// Changes the children of the side group that has so many side groups ahead of it, node
/// before children.
pub fn change_side(shape: &mut Shape, ahead: &mut usize, change: &mut impl FnMut(&mut Vec<Shape>)) {
    if let Shape::Group { side, children } = shape {
        if *side {
            if *ahead == 0 {
                change(children);
            }
            *ahead = ahead.wrapping_sub(1);
        }
        let each = children.iter_mut();
        each.for_each(|child| change_side(child, ahead, change));
    }
}

pub fn leaves(jobs: &[usize]) -> Vec<Shape> {
    jobs.iter().map(|&job| Shape::Leaf(job)).collect()
}

/// A group of the children, or the one child that there is.
pub fn group(side: bool, mut children: Vec<Shape>) -> Shape {
    if children.len() == 1 {
        return children.remove(0);
    }
    Shape::Group { side, children }
}

/// The jobs, so many at a time, in groups in a group of this kind.
pub fn blocks(jobs: &[usize], side: bool, width: usize) -> Shape {
    let each = jobs.chunks(width).map(|jobs| group(!side, leaves(jobs)));
    group(side, each.collect())
}

/// Groups of both kinds in turn, the outermost of this kind, so many in each other,
/// the children of each of unequal numbers of jobs.
pub fn uneven(rng: &mut Rng, jobs: &[usize], side: bool, depth: usize) -> Shape {
    if depth == 1 || jobs.len() == 1 {
        return group(side, leaves(jobs));
    }
    let mut rest = jobs;
    let mut children = Vec::new();
    for size in unequal_sizes(rng, jobs.len()) {
        let (part, others) = rest.split_at(size);
        children.push(uneven(rng, part, !side, depth - 1));
        rest = others;
    }
    group(side, children)
}

/// Sizes of two parts or more of so many: 1, 2, 3 and so on, backwards or in any
/// sequence, or one large part among some of 1.
fn unequal_sizes(rng: &mut Rng, total: usize) -> Vec<usize> {
    if rng.percent(50) {
        let ones = rng.from(1, 3.min(total - 1));
        let mut sizes = vec![1; ones];
        sizes.insert(rng.below(ones + 1), total - ones);
        return sizes;
    }
    let mut sizes = Vec::new();
    let mut left = total;
    while left > 0 {
        let size = left.min(sizes.len() + 1);
        sizes.push(size);
        left -= size;
    }
    match rng.below(3) {
        0 => {}
        1 => sizes.reverse(),
        _ => rng.shuffle(&mut sizes),
    }
    sizes
}

/// Groups of two of both kinds in turn, the outermost of this kind, each the last or the
/// first child of the one ahead, by the job that is the other.
pub fn nested(jobs: &[usize], side: bool, last: fn(usize) -> bool) -> Shape {
    if jobs.len() == 1 {
        return Shape::Leaf(jobs[0]);
    }
    let inner = nested(&jobs[1..], !side, last);
    let mut children = vec![Shape::Leaf(jobs[0]), inner];
    if !last(jobs[0]) {
        children.reverse();
    }
    group(side, children)
}

/// Every plain tree on the jobs, which ascend.
pub fn every_plain(jobs: &[usize]) -> Vec<Shape> {
    every_former(jobs).into_iter().map(plain).collect()
}

/// Every one of them in the former order.
pub fn every_former(jobs: &[usize]) -> Vec<Shape> {
    let mut trees = every_former_of(jobs, false);
    if jobs.len() > 1 {
        trees.extend(every_former_of(jobs, true));
    }
    trees
}

/// Those of them that are groups of this kind, or the leaf.
fn every_former_of(jobs: &[usize], side: bool) -> Vec<Shape> {
    if jobs.len() == 1 {
        return leaves(jobs);
    }
    let lists = every_list(jobs, side, jobs.len() - 1);
    lists
        .into_iter()
        .map(|children| Shape::Group { side, children })
        .collect()
}

/// Every list of children that such a group can have, the first with at most so
/// many of the jobs. In a side group the first has the smallest.
fn every_list(jobs: &[usize], side: bool, most: usize) -> Vec<Vec<Shape>> {
    if jobs.is_empty() {
        return vec![Vec::new()];
    }
    let mut lists = Vec::new();
    for choice in 1usize..1 << jobs.len() {
        if choice.count_ones() as usize > most || side && choice % 2 == 0 {
            continue;
        }
        let chosen = |wanted: usize| -> Vec<usize> {
            let places = (0..jobs.len()).filter(|place| choice >> place & 1 == wanted);
            places.map(|place| jobs[place]).collect()
        };
        let rests = every_list(&chosen(0), side, jobs.len());
        for first in every_former_of(&chosen(1), !side) {
            for rest in &rests {
                lists.push([&[first.clone()], &rest[..]].concat());
            }
        }
    }
    lists
}

/// The orders that a tree cannot do without, and all that it means.
#[derive(Default)]
pub struct Meant {
    pub needed: Orders,
    pub all: Orders,
}

pub fn meant(shape: &Shape) -> Meant {
    let mut meant = Meant::default();
    ends(shape, &mut meant);
    meant
}

/// The first and the last jobs of a shape.
fn ends(shape: &Shape, meant: &mut Meant) -> (Vec<usize>, Vec<usize>) {
    let Shape::Group { side, children } = shape else {
        return (shape.jobs(), shape.jobs());
    };
    let each: Vec<_> = children.iter().map(|child| ends(child, meant)).collect();
    if *side {
        let join = |list: Vec<&Vec<usize>>| list.into_iter().flatten().copied().collect();
        return (
            join(each.iter().map(|(first, _)| first).collect()),
            join(each.iter().map(|(_, last)| last).collect()),
        );
    }
    for i in 1..children.len() {
        for &u in &each[i - 1].1 {
            for &v in &each[i].0 {
                meant.needed.push((u, v));
            }
        }
        let later = children[i].jobs();
        for u in children[..i].iter().flat_map(Shape::jobs) {
            for &v in &later {
                meant.all.push((u, v));
            }
        }
    }
    (each[0].0.clone(), each[children.len() - 1].1.clone())
}

/// A random series-parallel order with redundant orders and repeats, shuffled.
pub fn series_parallel(rng: &mut Rng, count: usize) -> Orders {
    let shape = shape(rng, count, false);
    let Meant {
        needed: mut orders,
        all,
    } = meant(&shape);
    let room = 4096 - orders.len();
    if !all.is_empty() {
        let extra = match rng.below(4) {
            0 => 0,
            1 => rng.below(3),
            2 => rng.below(count + 1),
            _ => rng.below(all.len() + 1),
        };
        for _ in 0..extra.min(room) {
            // A repeat now and then.
            let order = if rng.percent(20) {
                rng.pick(&orders)
            } else {
                rng.pick(&all)
            };
            orders.push(order);
        }
    }
    if !rng.percent(15) {
        rng.shuffle(&mut orders);
    }
    orders
}

/// Any directed graph: with circles or without, sparse or dense.
pub fn any_graph(rng: &mut Rng, count: usize) -> Orders {
    let mut rank: Vec<usize> = (0..count).collect();
    rng.shuffle(&mut rank);
    let along_rank = rng.percent(70);
    let orders = match rng.below(4) {
        0 => rng.below(count + 1),
        1 => rng.below(2 * count + 1),
        2 => rng.below(count * count / 4 + 1),
        _ => rng.below(count * count + 1),
    };
    let mut list = Vec::new();
    for _ in 0..orders.min(4096) {
        let (u, v) = (rng.below(count), rng.below(count));
        if u == v && !rng.percent(2) {
            continue;
        }
        let turned = along_rank && rank[u] > rank[v] && !rng.percent(1);
        list.push(if turned { (v, u) } else { (u, v) });
    }
    list
}

/// Hours for so many jobs, none above 4,095.
pub fn hours_within(rng: &mut Rng, count: usize) -> Vec<u16> {
    let style = rng.below(8);
    let mut one = || match style {
        0..=1 => 0,
        2 => rng.pick(&[0, 1, 9, 10, 99, 100, 999, 1000, 2048, 4094, 4095]),
        3 => rng.below(11),
        _ => rng.below(4096),
    };
    (0..count).map(|_| one() as u16).collect()
}

/// The same, now and then with some above.
pub fn hours(rng: &mut Rng, count: usize) -> Vec<u16> {
    let mut hours = hours_within(rng, count);
    if count > 0 && rng.percent(3) {
        for _ in 0..rng.from(1, 3) {
            hours[rng.below(count)] = rng.pick(&[4096, 4097, 5000, 8192, 9999]);
        }
    }
    hours
}

pub fn sheet(count: usize, hours: &[u16], orders: &[(usize, usize)]) -> Vec<u8> {
    let mut text = format!("{count}\n");
    for hours in hours {
        text += &format!("{hours}\n");
    }
    for (u, v) in orders {
        text += &format!("{u} {v}\n");
    }
    text.into_bytes()
}

/// The lines of a text, the bytes after the last line feed left out.
pub fn lines(text: &[u8]) -> usize {
    text.iter().filter(|&&byte| byte == b'\n').count()
}

/// The text with a carriage return put ahead of so many of its line feeds.
pub fn with_returns(rng: &mut Rng, text: &[u8], returns: usize) -> Vec<u8> {
    let mut chosen: Vec<bool> = (0..lines(text)).map(|line| line < returns).collect();
    rng.shuffle(&mut chosen);
    let mut chosen = chosen.into_iter();
    let mut mixed = Vec::new();
    for &byte in text {
        if byte == b'\n' && chosen.next() == Some(true) {
            mixed.push(b'\r');
        }
        mixed.push(byte);
    }
    mixed
}

/// The text with a carriage return ahead of none of its line feeds, of all, and
/// of some.
pub fn each_end(rng: &mut Rng, text: &[u8]) -> [Vec<u8>; 3] {
    let lines = lines(text);
    [0, lines, rng.below(lines + 1)].map(|returns| with_returns(rng, text, returns))
}

/// One of these.
pub fn any_end(rng: &mut Rng, text: &[u8]) -> Vec<u8> {
    let [none, all, some] = each_end(rng, text);
    match rng.below(4) {
        0 => none,
        1 => all,
        _ => some,
    }
}

pub fn list(orders: &[(usize, usize)]) -> Vec<u16> {
    orders
        .iter()
        .flat_map(|&(u, v)| [u as u16, v as u16])
        .collect()
}

/// One edit somewhere in a text.
pub fn edit(rng: &mut Rng, text: &mut Vec<u8>) {
    let likely = b"0123456789 \n\n\r  00";
    let hostile = b"\r\t-+,./:x\0\x0b\x7f\x80\xff";
    let byte = match rng.below(10) {
        0 => rng.below(256) as u8,
        1..=2 => rng.pick(hostile),
        _ => rng.pick(likely),
    };
    let at = rng.below(text.len() + 1);
    let inside = at < text.len();
    match rng.below(10) {
        0..=2 if inside => text[at] = byte,
        3..=4 if inside => drop(text.remove(at)),
        5 if at + 1 < text.len() => text.swap(at, at + 1),
        6 => text.truncate(at),
        7 => {
            // Some bytes again.
            let end = rng.from(at, text.len().min(at + 9));
            let piece = text[at..end].to_vec();
            let to = rng.below(text.len() + 1);
            text.splice(to..to, piece);
        }
        8 if inside && text[at].is_ascii_digit() => text[at] = b'0' + rng.below(10) as u8,
        _ => text.insert(at, byte),
    }
}

fn bit(bytes: &[u8], at: usize) -> bool {
    bytes[at / 8] & 0x80 >> (at % 8) != 0
}

pub fn flip(bytes: &[u8], at: usize) -> Vec<u8> {
    let mut bytes = bytes.to_vec();
    bytes[at / 8] ^= 0x80 >> (at % 8);
    bytes
}

/// The first bits of the job numbers in a record.
pub fn job_fields(record: &[u8]) -> Vec<usize> {
    let count = (record[0] >> 1) as usize + 1;
    let mut fields = Vec::new();
    let mut at = 7;
    while fields.len() < count {
        if bit(record, at) {
            at += 9;
        } else {
            fields.push(at + 1);
            at += 20;
        }
    }
    fields
}

/// The record with so many of the 12 bits of each hours, the last ones, or with
/// zeros ahead of them: without hours it is in the former layout.
pub fn with_hours_of(record: &[u8], width: usize) -> Vec<u8> {
    let mut bits = Bits::default();
    let mut at = 0;
    let mut copy_to = |bits: &mut Bits, end: usize| {
        (at..end).for_each(|at| bits.put(bit(record, at) as usize, 1));
        at = end;
    };
    for job in job_fields(record) {
        copy_to(&mut bits, job + 7);
        bits.put(0, width.saturating_sub(12));
        let mut left_out = Bits::default();
        copy_to(&mut left_out, job + 19 - width.min(12));
        copy_to(&mut bits, job + 19);
    }
    bits.bytes()
}

/// The record with two job numbers, given by their first bits, exchanged.
pub fn swap_jobs(record: &[u8], one: usize, other: usize) -> Vec<u8> {
    let mut swapped = record.to_vec();
    for i in 0..7 {
        if bit(record, one + i) != bit(record, other + i) {
            swapped = flip(&flip(&swapped, one + i), other + i);
        }
    }
    swapped
}

/// Numbers that depend on the bytes alone.
pub fn rng_of(bytes: &[u8]) -> Rng {
    let seed = bytes.iter().fold(1, |seed: u64, &byte| {
        seed.wrapping_mul(0x100_0000_01b3) ^ byte as u64
    });
    Rng::new(seed)
}

/// The record with one bit changed, with one byte changed, shortened, lengthened,
/// and with two jobs exchanged. Where depends on the record alone.
pub fn damages(record: &[u8]) -> Vec<Vec<u8>> {
    let mut rng = rng_of(record);
    let mut byte = record.to_vec();
    let at = rng.below(byte.len());
    byte[at] = byte[at].wrapping_add(rng.from(1, 255) as u8);
    let mut longer = record.to_vec();
    let more = if rng.percent(50) { 0 } else { rng.below(256) };
    longer.push(more as u8);
    let fields = job_fields(record);
    let (one, other) = (rng.pick(&fields), rng.pick(&fields));
    vec![
        flip(record, rng.below(8 * record.len())),
        byte,
        record[..rng.below(record.len())].to_vec(),
        longer,
        swap_jobs(record, one, other),
    ]
}

/// Bits written one after the other.
#[derive(Default)]
pub struct Bits(Vec<bool>);

impl Bits {
    pub fn put(&mut self, value: usize, width: usize) {
        for place in (0..width).rev() {
            self.0.push(value >> place & 1 == 1);
        }
    }

    pub fn bytes(&self) -> Vec<u8> {
        let byte = |bits: &[bool]| {
            bits.iter()
                .enumerate()
                .fold(0, |byte, (i, &set)| byte | (set as u8) << (7 - i))
        };
        self.0.chunks(8).map(byte).collect()
    }
}

/// What is wrong with a record made by hand.
#[derive(Clone, Copy, PartialEq)]
pub enum Flaw {
    None,
    WrongCount,
    JobTwice,
    JobOffTheList,
    GroupOfOne,
    UnsortedSides,
    FormerOrder,
    SameKindInside,
    FillSet,
    MoreBytes,
    /// Hours of so many bits.
    HoursOf(usize),
}

pub const FLAWS: [Flaw; 13] = [
    Flaw::None,
    Flaw::WrongCount,
    Flaw::JobTwice,
    Flaw::JobOffTheList,
    Flaw::GroupOfOne,
    Flaw::UnsortedSides,
    Flaw::FormerOrder,
    Flaw::SameKindInside,
    Flaw::FillSet,
    Flaw::MoreBytes,
    Flaw::HoursOf(0),
    Flaw::HoursOf(11),
    Flaw::HoursOf(13),
];

/// The record of a random tree with one flaw, or with none.
pub fn flawed_record(rng: &mut Rng, flaw: Flaw) -> Vec<u8> {
    let count = job_count(rng);
    let mut tree = shape(rng, count, flaw != Flaw::SameKindInside);
    tree = match flaw {
        Flaw::UnsortedSides => tree,
        Flaw::FormerOrder => former(tree),
        _ => plain(tree),
    };
    let mut stated = count;
    match flaw {
        Flaw::WrongCount => {
            stated = if rng.percent(50) {
                count + 1
            } else {
                rng.from(1, 128)
            }
        }
        Flaw::JobTwice => {
            let job = rng.below(count);
            set_leaf(&mut tree, &mut rng.below(count), job);
        }
        Flaw::JobOffTheList => {
            let job = rng.from(count.min(127), 127);
            set_leaf(&mut tree, &mut rng.below(count), job);
        }
        _ => {}
    }
    let mut bits = Bits::default();
    bits.put((stated - 1) & 127, 7);
    let mut layout = Layout {
        hours: &hours_within(rng, 128),
        width: 12,
        single: usize::MAX,
        single_side: rng.percent(50),
    };
    match flaw {
        Flaw::GroupOfOne => layout.single = rng.below(count),
        Flaw::HoursOf(width) => layout.width = width,
        _ => {}
    }
    layout.put(&mut bits, &tree);
    if flaw == Flaw::FillSet && bits.0.len() % 8 != 0 {
        let fill = 8 - bits.0.len() % 8;
        bits.put(1 << rng.below(fill), fill);
    }
    let mut bytes = bits.bytes();
    if flaw == Flaw::MoreBytes {
        let more = rng.from(1, 3);
        bytes.resize(bytes.len() + more, 0);
    }
    bytes
}

/// So many groups of two, chain and side in turn, each the first child of the
/// one ahead; up to 127 of them make a plain tree.
pub fn nested_record(rng: &mut Rng, groups: usize) -> Vec<u8> {
    let side = rng.percent(50);
    let mut bits = Bits::default();
    bits.put(groups.min(127), 7);
    for group in 0..groups {
        bits.put(0b10 | (side ^ (group % 2 == 1)) as usize, 2);
        bits.put(1, 7);
    }
    for (job, hours) in hours_within(rng, groups + 1).into_iter().enumerate() {
        bits.put(job.min(127), 8);
        bits.put(hours as usize, 12);
    }
    bits.bytes()
}

/// Puts a job on the leaf that has so many leaves left of it.
fn set_leaf(shape: &mut Shape, left: &mut usize, to: usize) {
    match shape {
        Shape::Leaf(job) => {
            if *left == 0 {
                *job = to;
            }
            *left = left.wrapping_sub(1);
        }
        Shape::Group { children, .. } => {
            children
                .iter_mut()
                .for_each(|child| set_leaf(child, left, to));
        }
    }
}

/// The record of a plain tree with these hours by job.
pub fn laid_out(tree: &Shape, hours: &[u16]) -> Vec<u8> {
    let mut bits = Bits::default();
    bits.put(hours.len() - 1, 7);
    let mut layout = Layout {
        hours,
        width: 12,
        single: usize::MAX,
        single_side: false,
    };
    layout.put(&mut bits, tree);
    bits.bytes()
}

/// How a shape is laid out: with hours by job, of so many bits; the leaf with
/// `single` leaves left of it goes into a group of its own, of the given kind.
struct Layout<'a> {
    hours: &'a [u16],
    width: usize,
    single: usize,
    single_side: bool,
}

impl Layout<'_> {
    fn put(&mut self, bits: &mut Bits, shape: &Shape) {
        match shape {
            Shape::Leaf(job) => {
                if self.single == 0 {
                    bits.put(0b10 | self.single_side as usize, 2);
                    bits.put(0, 7);
                }
                self.single = self.single.wrapping_sub(1);
                bits.put(*job, 8);
                bits.put(self.hours[*job] as usize, self.width);
            }
            Shape::Group { side, children } => {
                bits.put(0b10 | *side as usize, 2);
                bits.put(children.len() - 1, 7);
                children.iter().for_each(|child| self.put(bits, child));
            }
        }
    }
}
