//! Accepted calls on tables, and what makes each refusal apply to them: one reason alone, then every two together.
use super::scene::*;
use super::Case;
use crate::bytes::put_word;
use crate::compare::{Comparer, Outcome};
use crate::monitor::{Call, Kind, MARKED};
use Kind::*;

/// The region's first block in these cases.
pub const FIRST: u32 = 0x300;
pub const LIMIT: u32 = 1 << 22;

/// A call in the making.
#[derive(Clone)]
pub struct Setup {
    pub scene: Scene,
    pub call: Call,
}

impl Setup {
    fn new(scene: Scene, kind: Kind, arguments: &[u32]) -> Setup {
        Setup { scene, call: Call::new(kind, arguments) }
    }

    pub fn case(self, name: &str, expected: Option<u32>) -> Case {
        Case { name: name.to_string(), call: self.call, store: self.scene.store, expected, hashed: None }
    }

    fn same(&self, other: &Setup) -> bool {
        self.call == other.call && self.scene.store == other.scene.store
    }

    fn argument(&mut self, which: usize) -> &mut u32 {
        &mut self.call.arguments[which]
    }
}

/// A refusal number and what makes it apply.
type Reason = (u32, fn(&mut Setup));

/// Where things stand. Around L1 tables: a section of data from 0, the table, an L2 block. Around L2 blocks: the block and some data, and room for the
/// sixteen blocks of a large page.
pub const L1_TABLE: usize = 256;
pub const L2_BLOCK: usize = 260;
pub const L1_REGION: usize = 264;
pub const PAGE_TABLE: usize = 8;
pub const PAGE: usize = 10;
pub const L2_REGION: usize = 16;
pub const LARGE: usize = 16;
pub const LARGE_REGION: usize = 40;
/// The last sixteen entries of an L2 block.
pub const LAST_RUN: usize = 1008;

/// A section of data, an L1 table of zeros and an L2 block. The tables are marked.
pub fn l1_scene() -> Scene {
    let mut scene = Scene::new(FIRST, L1_REGION);
    scene.set_marks(L1_TABLE..L2_BLOCK + 1, MARKED);
    scene.set_types(L1_TABLE..L1_TABLE + 4, 1);
    scene.set_types(L2_BLOCK..L2_BLOCK + 1, 2);
    scene
}

/// An L2 block of zeros, marked, and some data.
pub fn l2_scene() -> Scene {
    let mut scene = Scene::new(FIRST, L2_REGION);
    scene.set_marks(PAGE_TABLE..PAGE_TABLE + 1, MARKED);
    scene.set_types(PAGE_TABLE..PAGE_TABLE + 1, 2);
    scene.put_byte(PAGE, 0, 1);
    scene
}

/// An L2 block of zeros, marked, and data of zeros behind it, signed.
pub fn large_scene() -> Scene {
    let mut scene = Scene::new(FIRST, LARGE_REGION);
    scene.set_marks(PAGE_TABLE..PAGE_TABLE + 1, MARKED);
    scene.set_types(PAGE_TABLE..PAGE_TABLE + 1, 2);
    scene.sign_all_zeros();
    scene
}

/// Raises a counter on all blocks of the section.
fn count_section(scene: &mut Scene, which: usize, value: u32) {
    for position in 0..256 {
        scene.set_record(position, which, value);
    }
}

/// Sets a counter on all blocks of the large page.
pub fn count_large(scene: &mut Scene, which: usize, value: u32) {
    for position in LARGE..LARGE + 16 {
        scene.set_record(position, which, value);
    }
}

/// The same call in accepted forms: writing, executing, linking.
pub fn accepted(kind: Kind) -> Vec<Setup> {
    match kind {
        CreateL1 => [SECTION_WRITE, SECTION_EXECUTE].map(create_l1).to_vec(),
        CreateL2 => [PAGE_WRITE, PAGE_EXECUTE].map(create_l2).to_vec(),
        FreeL1 => [(SECTION_WRITE, W), (SECTION_EXECUTE, X)].map(|(low, which)| free_l1(low, which)).to_vec(),
        FreeL2 => [(PAGE_WRITE, W), (PAGE_EXECUTE, X)].map(|(low, which)| free_l2(low, which)).to_vec(),
        MapL1 => [3, 5].map(map_l1).to_vec(),
        MapL2 => [3, 5].map(map_l2).to_vec(),
        Link => {
            let scene = l1_scene();
            let arguments = [scene.block(L1_TABLE), 1030, scene.block(L2_BLOCK), 2];
            vec![Setup::new(scene, Link, &arguments)]
        }
        UnmapL1 => vec![unmap_l1(SECTION_WRITE, W), unmap_l1(SECTION_EXECUTE, X), unmap_link()],
        UnmapL2 => [(PAGE_WRITE, W), (PAGE_EXECUTE, X)].map(|(low, which)| unmap_l2(low, which)).to_vec(),
        MapLarge => [3, 5].map(map_large).to_vec(),
        UnmapLarge => [(LARGE_WRITE, W), (LARGE_EXECUTE, X)].map(|(low, which)| unmap_large(low, which)).to_vec(),
        _ => Vec::new(),
    }
}

fn create_l1(low: u32) -> Setup {
    let mut scene = l1_scene();
    scene.set_types(L1_TABLE..L1_TABLE + 4, 0);
    scene.put(L1_TABLE, 3, scene.link(L2_BLOCK, 1));
    scene.put(L1_TABLE, 1030, scene.mapping(0, low));
    scene.sign_all_zeros();
    let block = scene.block(L1_TABLE);
    Setup::new(scene, CreateL1, &[block])
}

fn create_l2(low: u32) -> Setup {
    let mut scene = l2_scene();
    scene.set_types(PAGE_TABLE..PAGE_TABLE + 1, 0);
    scene.put(PAGE_TABLE, 1023, scene.mapping(PAGE, low));
    scene.put(PAGE_TABLE, 3, scene.mapping(PAGE + 1, PAGE_READ));
    scene.sign(PAGE);
    let block = scene.block(PAGE_TABLE);
    Setup::new(scene, CreateL2, &[block])
}

fn free_l1(low: u32, which: usize) -> Setup {
    let mut setup = create_l1(low);
    setup.scene.set_types(L1_TABLE..L1_TABLE + 4, 1);
    setup.scene.set_record(L2_BLOCK, L, 1);
    count_section(&mut setup.scene, which, 1);
    Setup { call: Call { kind: FreeL1, ..setup.call }, ..setup }
}

fn free_l2(low: u32, which: usize) -> Setup {
    let mut setup = create_l2(low);
    setup.scene.set_types(PAGE_TABLE..PAGE_TABLE + 1, 2);
    setup.scene.set_record(PAGE, which, 1);
    Setup { call: Call { kind: FreeL2, ..setup.call }, ..setup }
}

fn map_l1(rights: u32) -> Setup {
    let mut scene = l1_scene();
    scene.sign_all_zeros();
    let arguments = [scene.block(L1_TABLE), 1030, scene.block(0), rights];
    Setup::new(scene, MapL1, &arguments)
}

fn map_l2(rights: u32) -> Setup {
    let mut scene = l2_scene();
    scene.sign(PAGE);
    let arguments = [scene.block(PAGE_TABLE), 1023, scene.block(PAGE), rights];
    Setup::new(scene, MapL2, &arguments)
}

fn unmap_l1(low: u32, which: usize) -> Setup {
    let mut scene = l1_scene();
    scene.put(L1_TABLE, 1030, scene.mapping(0, low));
    count_section(&mut scene, which, 1);
    let block = scene.block(L1_TABLE);
    Setup::new(scene, UnmapL1, &[block, 1030])
}

fn unmap_link() -> Setup {
    let mut scene = l1_scene();
    scene.put(L1_TABLE, 1030, scene.link(L2_BLOCK, 3));
    scene.set_record(L2_BLOCK, L, 1);
    let block = scene.block(L1_TABLE);
    Setup::new(scene, UnmapL1, &[block, 1030])
}

fn unmap_l2(low: u32, which: usize) -> Setup {
    let mut scene = l2_scene();
    scene.put(PAGE_TABLE, 1023, scene.mapping(PAGE, low));
    scene.set_record(PAGE, which, 1);
    let block = scene.block(PAGE_TABLE);
    Setup::new(scene, UnmapL2, &[block, 1023])
}

fn map_large(rights: u32) -> Setup {
    let scene = large_scene();
    let arguments = [scene.block(PAGE_TABLE), LAST_RUN as u32, scene.block(LARGE), rights];
    Setup::new(scene, MapLarge, &arguments)
}

fn unmap_large(low: u32, which: usize) -> Setup {
    let mut scene = large_scene();
    scene.put_run(PAGE_TABLE, LAST_RUN, scene.mapping(LARGE, low));
    count_large(&mut scene, which, 1);
    let block = scene.block(PAGE_TABLE);
    Setup::new(scene, UnmapLarge, &[block, LAST_RUN as u32])
}

/// The refusals of each accepted form, in the order of `accepted`.
fn reasons(kind: Kind) -> Vec<Vec<Reason>> {
    let mut common: Vec<Reason> = vec![(1, long_ledger), (1, odd_first), (2, far_block)];
    if matches!(kind, CreateL1 | FreeL1 | MapL1 | Link | UnmapL1) {
        common.push((3, odd_block));
    }
    if matches!(kind, CreateL1 | CreateL2 | MapL1 | MapL2 | MapLarge) {
        common.push((1, golden_part));
    }
    let own: Vec<Vec<Reason>> = match kind {
        CreateL1 => vec![create_l1_reasons(), [create_l1_reasons(), vec![(11, w_section), (12, tampered)]].concat()],
        CreateL2 => vec![create_l2_reasons(), [create_l2_reasons(), vec![(11, w_page), (12, tampered_page)]].concat()],
        FreeL1 => {
            vec![[free_l1_reasons(), vec![(13, zero_w)]].concat(), [free_l1_reasons(), vec![(13, zero_x)]].concat()]
        }
        FreeL2 => {
            vec![[free_l2_reasons(), vec![(13, page_w0)]].concat(), [free_l2_reasons(), vec![(13, page_x0)]].concat()]
        }
        MapL1 => vec![
            [map_l1_reasons(), vec![(10, l2_in_section), (11, x_section), (13, full_w_section)]].concat(),
            [map_l1_reasons(), vec![(11, w_section), (12, tampered), (13, full_x_section)]].concat(),
        ],
        MapL2 => vec![
            [map_l2_reasons(), vec![(10, l2_page), (11, x_page), (13, full_w_page)]].concat(),
            [map_l2_reasons(), vec![(11, w_page), (12, tampered_page), (13, full_x_page)]].concat(),
        ],
        Link => vec![link_reasons()],
        UnmapL1 => vec![
            [unmap_l1_reasons(), vec![(10, section_outside), (13, zero_w), (13, high_w)]].concat(),
            [unmap_l1_reasons(), vec![(10, section_outside), (13, zero_x)]].concat(),
            [unmap_l1_reasons(), vec![(10, link_outside), (13, zero_l), (13, high_l)]].concat(),
        ],
        UnmapL2 => vec![
            [unmap_l2_reasons(), vec![(13, page_w0)]].concat(),
            [unmap_l2_reasons(), vec![(13, page_x0), (13, page_x_high)]].concat(),
        ],
        MapLarge => vec![
            [map_large_reasons(), vec![(10, strange_large), (11, x_large), (13, full_w_large)]].concat(),
            [map_large_reasons(), vec![(10, holder_large), (11, w_large), (12, tampered_large), (13, full_x_large)]]
                .concat(),
        ],
        UnmapLarge => vec![
            [unmap_large_reasons(), vec![(13, w0_large), (13, w_high_large)]].concat(),
            [unmap_large_reasons(), vec![(13, x0_large), (13, x_high_large)]].concat(),
        ],
        _ => Vec::new(),
    };
    own.into_iter().map(|reasons| [common.clone(), reasons].concat()).collect()
}

fn create_l1_reasons() -> Vec<Reason> {
    vec![
        (5, |s| s.scene.set_record(L1_TABLE + 1, TYPE, 1)),
        (5, |s| s.scene.set_record(L1_TABLE, TYPE, 0x100)),
        (6, |s| s.scene.set_record(L1_TABLE + 3, L, 1)),
        (6, |s| s.scene.set_record(L1_TABLE, W, 1)),
        (8, |s| s.scene.put(L1_TABLE, 4095, 3)),
        (8, |s| s.scene.put(L1_TABLE, 0, s.scene.mapping(0, SECTION_READ | 1 << 18))),
        (10, |s| s.scene.put(L1_TABLE, 7, (0x77 << 20) + SECTION_NONE)),
        (10, |s| s.scene.set_record(L2_BLOCK, TYPE, 0)),
        (11, |s| s.scene.put(L1_TABLE, 1031, s.scene.mapping(0, SECTION_ALL))),
        (13, |s| {
            s.scene.set_record(9, W, LIMIT * u32::from(s.writes()));
            s.scene.set_record(9, X, LIMIT * u32::from(!s.writes()));
        }),
        (13, |s| s.scene.set_record(L2_BLOCK, L, u32::MAX)),
    ]
}

fn create_l2_reasons() -> Vec<Reason> {
    vec![
        (5, |s| s.scene.set_record(PAGE_TABLE, TYPE, 2)),
        (6, |s| s.scene.set_record(PAGE_TABLE, X, 1)),
        (8, |s| s.scene.put(PAGE_TABLE, 0, 1)),
        (8, |s| s.scene.put(PAGE_TABLE, 512, s.scene.mapping(PAGE, 0x20E))),
        (10, |s| s.scene.put(PAGE_TABLE, 256, (0x310 << 12) + PAGE_NONE)),
        (10, |s| s.scene.put(PAGE_TABLE, 256, s.scene.mapping(PAGE_TABLE, PAGE_WRITE))),
        (11, |s| s.scene.put(PAGE_TABLE, 767, s.scene.mapping(PAGE, PAGE_ALL))),
        (13, |s| {
            s.scene.set_record(PAGE, W, LIMIT * u32::from(s.writes()));
            s.scene.set_record(PAGE, X, LIMIT * u32::from(!s.writes()));
        }),
    ]
}

fn free_l1_reasons() -> Vec<Reason> {
    vec![
        (5, |s| s.scene.set_record(L1_TABLE + 2, TYPE, 0)),
        (6, |s| s.scene.activate(L1_TABLE)),
        (8, |s| s.scene.put(L1_TABLE, 4095, 3)),
        (10, |s| s.scene.put(L1_TABLE, 7, (0x77 << 20) + SECTION_NONE)),
        (13, |s| s.scene.set_record(L2_BLOCK, L, LIMIT + 2)),
    ]
}

fn free_l2_reasons() -> Vec<Reason> {
    vec![
        (5, |s| s.scene.set_record(PAGE_TABLE, TYPE, 1)),
        (6, |s| s.scene.set_record(PAGE_TABLE, L, 1)),
        (8, |s| s.scene.put(PAGE_TABLE, 0, 1)),
        (10, |s| s.scene.put(PAGE_TABLE, 256, (0x310 << 12) + PAGE_READ)),
        (13, |s| {
            s.scene.set_record(PAGE, W, (LIMIT + 2) * u32::from(s.writes()));
            s.scene.set_record(PAGE, X, (LIMIT + 2) * u32::from(!s.writes()));
        }),
    ]
}

fn map_l1_reasons() -> Vec<Reason> {
    vec![
        (3, |s| *s.argument(2) += 1),
        (4, |s| *s.argument(1) += 4096),
        (5, |s| s.scene.set_record(L1_TABLE + 1, TYPE, 2)),
        (7, executable_tables),
        (8, |s| s.scene.put(L1_TABLE, 1030, 3)),
        (8, |s| s.scene.put(L1_TABLE, 1030, s.scene.link(L2_BLOCK, 0))),
        (9, |s| *s.argument(3) |= 8),
        (9, |s| *s.argument(3) &= !1),
        (10, |s| *s.argument(2) += 0x1000),
        (11, |s| *s.argument(3) |= 6),
    ]
}

fn map_l2_reasons() -> Vec<Reason> {
    vec![
        (4, |s| *s.argument(1) += 1),
        (5, |s| s.scene.set_record(PAGE_TABLE, TYPE, 1)),
        (7, |s| s.scene.set_record(PAGE_TABLE, X, 1)),
        (8, |s| s.scene.put(PAGE_TABLE, 1023, 1)),
        (9, |s| *s.argument(3) |= 0x8000_0000),
        (9, |s| *s.argument(3) &= !1),
        (10, |s| *s.argument(2) += 0x100),
        (11, |s| *s.argument(3) |= 6),
    ]
}

fn link_reasons() -> Vec<Reason> {
    vec![
        (4, |s| *s.argument(1) += 4096),
        (4, |s| *s.argument(3) = 4),
        (5, |s| s.scene.set_record(L1_TABLE + 3, TYPE, 0)),
        (7, executable_tables),
        (8, |s| s.scene.put(L1_TABLE, 1030, s.scene.link(L2_BLOCK, 2))),
        (8, |s| s.scene.put(L1_TABLE, 1030, 2)),
        (10, |s| *s.argument(2) += 0x100),
        (10, |s| s.scene.set_record(L2_BLOCK, TYPE, 0)),
        (10, |s| s.scene.set_record(L2_BLOCK, TYPE, 3)),
        (13, |s| s.scene.set_record(L2_BLOCK, L, LIMIT)),
    ]
}

fn unmap_l1_reasons() -> Vec<Reason> {
    vec![
        (4, |s| *s.argument(1) += 4096),
        (5, |s| s.scene.set_record(L1_TABLE, TYPE, 0)),
        (7, executable_tables),
        (8, |s| s.scene.put(L1_TABLE, 1030, 0xFFFF_FFFF)),
    ]
}

fn unmap_l2_reasons() -> Vec<Reason> {
    vec![
        (4, |s| *s.argument(1) += 1),
        (5, |s| s.scene.set_record(PAGE_TABLE, TYPE, 0)),
        (7, |s| s.scene.set_record(PAGE_TABLE, X, 1)),
        (8, |s| s.scene.put(PAGE_TABLE, 1023, 0xFFFF_FFFD)),
        (10, |s| s.scene.put(PAGE_TABLE, 1023, (0x2FF << 12) + if s.writes() { PAGE_WRITE } else { PAGE_EXECUTE })),
    ]
}

fn map_large_reasons() -> Vec<Reason> {
    vec![
        (3, |s| *s.argument(1) += 1),
        (3, |s| *s.argument(2) += 8),
        (4, |s| *s.argument(1) += 16),
        (5, |s| s.scene.set_record(PAGE_TABLE, TYPE, 1)),
        (7, |s| s.scene.set_record(PAGE_TABLE, X, 1)),
        (8, |s| s.scene.put(PAGE_TABLE, LAST_RUN, 1)),
        (8, |s| s.scene.put(PAGE_TABLE, LAST_RUN + 15, s.scene.mapping(PAGE, PAGE_READ))),
        (8, |s| s.scene.put_run(PAGE_TABLE, LAST_RUN, s.scene.mapping(LARGE, LARGE_READ))),
        (9, |s| *s.argument(3) |= 0x8000_0000),
        (9, |s| *s.argument(3) &= !1),
        (10, |s| *s.argument(2) += 0x100),
        (10, |s| *s.argument(2) += 16),
        (11, |s| *s.argument(3) |= 6),
    ]
}

fn unmap_large_reasons() -> Vec<Reason> {
    vec![
        (3, |s| *s.argument(1) += 1),
        (4, |s| *s.argument(1) += 16),
        (5, |s| s.scene.set_record(PAGE_TABLE, TYPE, 0)),
        (7, |s| s.scene.set_record(PAGE_TABLE, X, 1)),
        (8, |s| s.scene.put_run(PAGE_TABLE, LAST_RUN, 0)),
        (8, |s| s.scene.put(PAGE_TABLE, LAST_RUN + 15, 0)),
        (8, |s| s.scene.put(PAGE_TABLE, LAST_RUN + 7, s.scene.word(PAGE_TABLE, LAST_RUN) ^ 1 << 12)),
        (8, |s| s.scene.put(PAGE_TABLE, LAST_RUN, (0x2FF << 12) + PAGE_READ)),
        (8, |s| s.scene.put_run(PAGE_TABLE, LAST_RUN, s.scene.word(PAGE_TABLE, LAST_RUN) | 1 << 6)),
        (10, large_outside),
    ]
}

impl Setup {
    /// Does this accepted form write, rather than execute?
    fn writes(&self) -> bool {
        let executes = match self.call.kind {
            CreateL1 | FreeL1 => self.scene.word(L1_TABLE, 1030) & 0xFFF == SECTION_EXECUTE,
            _ => self.scene.word(PAGE_TABLE, 1023) & 0xFFF == PAGE_EXECUTE,
        };
        !executes
    }
}

fn long_ledger(s: &mut Setup) {
    s.scene.store.ledger.push(0);
}

fn odd_first(s: &mut Setup) {
    put_word(&mut s.scene.store.ledger, 0, FIRST + 1);
}

fn golden_part(s: &mut Setup) {
    s.scene.store.golden.push(0);
}

fn far_block(s: &mut Setup) {
    *s.argument(0) += 0x1_0000;
}

fn odd_block(s: &mut Setup) {
    *s.argument(0) += 1;
}

/// The table's blocks, and what follows them, have x above 0.
fn executable_tables(s: &mut Setup) {
    for position in L1_TABLE + 1..L1_REGION {
        s.scene.set_record(position, X, 1);
    }
}

fn tampered(s: &mut Setup) {
    s.scene.put_byte(200, 77, 1);
}

fn tampered_page(s: &mut Setup) {
    s.scene.put_byte(PAGE, 4095, 1);
}

fn l2_in_section(s: &mut Setup) {
    s.scene.set_record(255, TYPE, 2);
}

fn l2_page(s: &mut Setup) {
    s.scene.set_record(PAGE, TYPE, 3);
}

fn w_section(s: &mut Setup) {
    s.scene.set_record(255, W, 1);
}

fn x_section(s: &mut Setup) {
    s.scene.set_record(255, X, 1);
}

fn full_w_section(s: &mut Setup) {
    s.scene.set_record(128, W, LIMIT);
}

fn full_x_section(s: &mut Setup) {
    s.scene.set_record(128, X, LIMIT);
}

fn w_page(s: &mut Setup) {
    s.scene.set_record(PAGE, W, 1);
}

fn x_page(s: &mut Setup) {
    s.scene.set_record(PAGE, X, 1);
}

fn full_w_page(s: &mut Setup) {
    s.scene.set_record(PAGE, W, LIMIT);
}

fn full_x_page(s: &mut Setup) {
    s.scene.set_record(PAGE, X, u32::MAX);
}

fn zero_w(s: &mut Setup) {
    s.scene.set_record(255, W, 0);
}

fn zero_x(s: &mut Setup) {
    s.scene.set_record(0, X, 0);
}

fn zero_l(s: &mut Setup) {
    s.scene.set_record(L2_BLOCK, L, 0);
}

fn high_w(s: &mut Setup) {
    s.scene.set_record(100, W, LIMIT + 2);
}

fn high_l(s: &mut Setup) {
    s.scene.set_record(L2_BLOCK, L, u32::MAX);
}

fn page_w0(s: &mut Setup) {
    s.scene.set_record(PAGE, W, 0);
}

fn page_x0(s: &mut Setup) {
    s.scene.set_record(PAGE, X, 0);
}

fn page_x_high(s: &mut Setup) {
    s.scene.set_record(PAGE, X, LIMIT + 2);
}

fn strange_large(s: &mut Setup) {
    s.scene.set_record(LARGE + 7, TYPE, 3);
}

/// The target has the holder among its sixteen blocks.
fn holder_large(s: &mut Setup) {
    *s.argument(2) = FIRST;
}

fn w_large(s: &mut Setup) {
    s.scene.set_record(LARGE + 7, W, 1);
}

fn x_large(s: &mut Setup) {
    s.scene.set_record(LARGE + 15, X, 1);
}

fn tampered_large(s: &mut Setup) {
    s.scene.put_byte(LARGE + 6, 4095, 1);
}

fn full_w_large(s: &mut Setup) {
    s.scene.set_record(LARGE + 6, W, LIMIT);
}

fn full_x_large(s: &mut Setup) {
    s.scene.set_record(LARGE + 15, X, u32::MAX);
}

fn w0_large(s: &mut Setup) {
    s.scene.set_record(LARGE + 15, W, 0);
}

fn x0_large(s: &mut Setup) {
    s.scene.set_record(LARGE + 7, X, 0);
}

fn w_high_large(s: &mut Setup) {
    s.scene.set_record(LARGE + 1, W, LIMIT + 2);
}

fn x_high_large(s: &mut Setup) {
    s.scene.set_record(LARGE + 15, X, u32::MAX);
}

/// The run becomes a large page of which only a part lies in the region, counted on no block.
fn large_outside(s: &mut Setup) {
    let low = s.scene.word(PAGE_TABLE, LAST_RUN) & 0xFFFF;
    s.scene.put_run(PAGE_TABLE, LAST_RUN, s.scene.mapping(LARGE + 16, low));
}

/// The entry becomes a section of which only a part lies in the region, counted as before.
fn section_outside(s: &mut Setup) {
    let low = s.scene.word(L1_TABLE, 1030) & 0xFFF;
    s.scene.put(L1_TABLE, 1030, s.scene.mapping(256, low));
}

fn link_outside(s: &mut Setup) {
    s.scene.put(L1_TABLE, 1030, (0x2FF << 12) + 1);
}

/// Each accepted form with each reason alone, and the answer.
pub fn refused(kind: Kind) -> Vec<(String, Setup, u32)> {
    let mut all = Vec::new();
    for (form, (setup, reasons)) in accepted(kind).into_iter().zip(reasons(kind)).enumerate() {
        for (i, (number, alter)) in reasons.iter().enumerate() {
            let mut altered = setup.clone();
            alter(&mut altered);
            all.push((format!("form {form}, reason {i} for {number}"), altered, *number));
        }
    }
    all
}

/// Each accepted form, and each reason alone.
pub fn run(kind: Kind, comparer: &mut Comparer) -> Outcome {
    for (form, setup) in accepted(kind).into_iter().enumerate() {
        comparer.check(setup.case(&format!("form {form}"), Some(0)))?;
    }
    for (name, setup, number) in refused(kind) {
        comparer.check(setup.case(&name, Some(number)).hashing(0))?;
    }
    Ok(())
}

/// Every two reasons together: the lower answers, unless the second alteration may undo the first.
pub fn pairs(kind: Kind, comparer: &mut Comparer) -> Outcome {
    for (form, (setup, reasons)) in accepted(kind).into_iter().zip(reasons(kind)).enumerate() {
        for (i, first) in reasons.iter().enumerate() {
            for (j, second) in reasons.iter().enumerate().filter(|(j, _)| *j != i) {
                let both = altered(&setup, first, second);
                let commute = both.same(&altered(&setup, second, first));
                let name = format!("form {form}, reason {i} for {} and {j} for {}", first.0, second.0);
                comparer.check(both.case(&name, commute.then_some(first.0.min(second.0))))?;
            }
        }
    }
    Ok(())
}

fn altered(setup: &Setup, first: &Reason, second: &Reason) -> Setup {
    let mut both = setup.clone();
    first.1(&mut both);
    second.1(&mut both);
    both
}
