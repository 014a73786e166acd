//! Lists of steps, drawn with an eye on what the steps before them left, with lists 7 to 12 and 14 to 16 held against every step.
use crate::bytes::word;
use crate::cases::scene::*;
use crate::compare::{difference, Comparer, Outcome};
use crate::demand::{Before, Told};
use crate::hasher::block_digest;
use crate::monitor::{
    naming_memory_kind, plain_call, Call, Given, Kind, Monitor, BLOCK, KINDS_AT, KINDS_BYTES, MARKED, NUMBERS,
    REGISTERS_BYTES,
};
use crate::random::Random;
use calls::RECORD_WORDS;
use std::collections::{BTreeSet, VecDeque};
use std::ops::Range;
use Kind::*;

/// Seed, blocks and steps of a list.
pub type List = (u64, usize, usize);

/// From this seed on, begins and maps of a list name kinds in half of the cases.
const FIRST_WITH_KINDS: u64 = 300;

/// From this seed on, accesses are lent any fault registers, and acknowledges come after them. In the lists before it the fault registers are 17 bytes,
/// each access is lent what the one before it left, and nothing is acknowledged.
const FIRST_WITH_REGISTERS: u64 = 600;

pub fn lists() -> impl Iterator<Item = List> {
    lists_without_kinds().chain(lists_with_kinds()).chain(lists_with_registers())
}

/// Many short ones in small regions, some in regions with room for large pages, a few with room for sections.
pub fn lists_without_kinds() -> impl Iterator<Item = List> {
    some_lists(0..80, 100..150, 200..216)
}

/// The same, and fewer.
pub fn lists_with_kinds() -> impl Iterator<Item = List> {
    some_lists(FIRST_WITH_KINDS..350, 400..430, 500..512)
}

/// Still fewer, in which begins and maps name kinds too.
pub fn lists_with_registers() -> impl Iterator<Item = List> {
    some_lists(FIRST_WITH_REGISTERS..620, 700..710, 800..804)
}

fn some_lists(small: Range<u64>, larger: Range<u64>, largest: Range<u64>) -> impl Iterator<Item = List> {
    let small = small.map(|seed| (seed, 8 + Random::new(seed).below(20), 400));
    let larger = larger.map(|seed| (seed, [48, 64, 67, 80][seed as usize % 4], 400));
    small.chain(larger).chain(largest.map(|seed| (seed, [260, 512, 520][seed as usize % 3], 150)))
}

/// The pages of an L2 table that accesses go to: some at its start, and some of the three runs there.
const PAGES: [u32; 13] = [0, 1, 2, 3, 4, 5, 16, 17, 24, 31, 32, 40, 47];

/// Compares every step, and holds lists 7 to 12 and 14 to 16 against it.
pub fn run(comparer: &mut Comparer) -> Outcome {
    for (seed, blocks, steps) in lists() {
        let mut lister = Lister::new(seed, blocks);
        for step in 0..=steps {
            let call = lister.next();
            let before = Before::from(&lister.scene.store);
            let name = format!("list {seed} of {blocks} blocks, step {step}");
            let given = comparer.step(&name, call, &mut lister.scene.store)?;
            if let Some(breach) = lister.told.step(call, given, &before, &lister.scene.store).first() {
                return Err(difference(&name, call, breach.to_string()));
            }
        }
    }
    Ok(())
}

/// For each of these lists, the clauses of lists 7 to 12 and 14 to 16 that the monitor breaks. It is compared with nothing.
pub fn broken_by<'a>(
    monitor: &'a dyn Monitor,
    lists: impl Iterator<Item = List> + 'a,
) -> impl Iterator<Item = BTreeSet<u32>> + 'a {
    lists.map(|(seed, blocks, steps)| {
        let mut lister = Lister::new(seed, blocks);
        let mut broken = BTreeSet::new();
        for _ in 0..=steps {
            let call = lister.next();
            let before = Before::from(&lister.scene.store);
            let given = monitor.perform(call, &mut lister.scene.store);
            let breaches = lister.told.step(call, given, &before, &lister.scene.store);
            broken.extend(breaches.iter().map(|breach| breach.clause));
        }
        broken
    })
}

/// Draws the steps of a list. The first is a begin.
pub struct Lister {
    pub scene: Scene,
    pub told: Told,
    random: Random,
    /// What memory kinds are drawn from, if begins and maps are to name any.
    memory_kinds: Option<Random>,
    /// What fault registers are drawn from, if accesses are to be lent others than those that are left.
    registers: Option<Random>,
    /// Steps that are already decided.
    plan: VecDeque<Call>,
}

impl Lister {
    /// A memory with data, beginnings of tables and zeros, some of it signed, if there is room sixteen signed blocks that all differ, and a ledger of
    /// random bytes with many marks. These sixteen, and zeros in the first places, are signed where the list begins and in other regions that a begin
    /// may move to: in one of these every second, and in one none.
    pub fn new(seed: u64, blocks: usize) -> Lister {
        let mut random = Random::new(1000 + seed);
        let first = 256 * random.below(5) as u32;
        let mut scene = Scene::new(first, blocks);
        scene.store.ledger = random.bytes(scene.store.ledger.len() - KINDS_BYTES);
        // Drawn apart, so that the older lists stay the same.
        let (mut memory_kinds, mut registers) = (Random::new(2000 + seed), Random::new(3000 + seed));
        scene.store.ledger.splice(KINDS_AT..KINDS_AT, memory_kinds.bytes(KINDS_BYTES));
        scene.store.kinds = kind_bytes(&random_kinds(&mut memory_kinds));
        scene.store.registers = registers.bytes(REGISTERS_BYTES);
        scene.set_marks(random.below(blocks)..blocks, MARKED);
        for group in (0..blocks.min(40)).step_by(4) {
            put_group(&mut scene, group, &mut random);
        }
        let different = if blocks >= 64 { 48..64 } else { 0..0 };
        for position in different.clone() {
            scene.fill(position, &mut random);
            scene.sign(position);
        }
        scene.sign_zeros(first..first + blocks.min(520) as u32);
        for (elsewhere, every) in [(0, 1), (0x100, 2), (0x700, 1)] {
            scene.sign_zeros((elsewhere..elsewhere + blocks.min(160) as u32).step_by(every));
            different.clone().step_by(every).for_each(|position| scene.sign_as(elsewhere + position as u32, position));
        }
        assert!(scene.store.golden.len() <= 32 * 1024, "the image has too many digests");
        if seed % 15 == 7 {
            scene.store.golden.push(1);
        }
        let memory_kinds = (seed >= FIRST_WITH_KINDS).then_some(memory_kinds);
        let registers = (seed >= FIRST_WITH_REGISTERS).then_some(registers);
        Lister { memory_kinds, registers, ..Lister::over(scene, random) }
    }

    /// Over a store that begin accepts, without kinds, and with the fault registers that it has.
    pub fn over(scene: Scene, random: Random) -> Lister {
        let plan = VecDeque::from([Call::new(Begin, &[scene.first])]);
        let told = Told::new(scene.first, scene.blocks());
        Lister { told, scene, random, memory_kinds: None, registers: None, plan }
    }

    /// The next steps of the list that records can say, as a monitor obeys them.
    pub fn obeyed_by(&mut self, monitor: &dyn Monitor, steps: usize) -> Vec<(Call, Given)> {
        let mut obeyed = Vec::with_capacity(steps);
        for _ in 0..steps {
            let call = self.next_recorded();
            let given = monitor.perform(call, &mut self.scene.store);
            self.told.note(call, given, &self.scene.store.kinds);
            obeyed.push((call, given));
        }
        obeyed
    }

    fn next_recorded(&mut self) -> Call {
        loop {
            let call = self.next();
            if call.kind.byte().is_some() {
                return call;
            }
        }
    }

    #[allow(clippy::should_implement_trait)]
    pub fn next(&mut self) -> Call {
        let call = self.drawn();
        if matches!(call.kind, Read | Write | Fetch) {
            self.draw_registers();
        }
        self.named(call)
    }

    /// The fault registers of an access, at times others than those that are left, and the acknowledges that come after it.
    fn draw_registers(&mut self) {
        let Some(random) = &mut self.registers else { return };
        if random.below(4) == 0 {
            self.scene.store.registers = random_registers(random);
        }
        for _ in 0..random.one_of(&[0, 0, 0, 0, 1, 2]) {
            self.plan.push_front(Call::new(Acknowledge, &[]));
        }
    }

    /// The same begin or map with kinds or with the number of one, seldom above 7, if it is to name any.
    fn named(&mut self, call: Call) -> Call {
        let Some(random) = &mut self.memory_kinds else { return call };
        let Some(kind) = naming_memory_kind(call.kind) else { return call };
        let number = match random.below(24) {
            0 => random.one_of(&[8, u32::MAX]),
            _ => random.below(8) as u32,
        };
        let [block, index, target, rights, _] = call.arguments;
        match random.below(2) {
            0 => Call { kind, arguments: [block, index, target, rights, number] },
            _ => call,
        }
    }

    /// The kinds of the next begin that names any: at times one that is not lawful, or a byte too few or too many.
    fn draw_kinds(&mut self) {
        let Some(random) = &mut self.memory_kinds else { return };
        let (mut kinds, choice) = (random_kinds(random), random.below(10));
        if choice == 0 {
            kinds[random.below(8)] = random_unlawful(random);
        }
        let mut bytes = kind_bytes(&kinds);
        match choice {
            1 => bytes.truncate(KINDS_BYTES - 1),
            2 => bytes.push(0),
            _ => {}
        }
        self.scene.store.kinds = bytes;
    }

    fn drawn(&mut self) -> Call {
        if let Some(call) = self.plan.pop_front() {
            return call;
        }
        if self.told.switched.is_none() && self.random.below(3) == 0 {
            self.plan_table();
        }
        let call = match self.random.below(100) {
            0 if self.random.below(2) == 0 => self.begin(),
            0..=4 => self.anything(),
            5..=12 => self.create(),
            13..=15 => self.free(),
            16..=26 => self.map_page(),
            27..=30 => self.map_large(),
            31..=38 => self.link(),
            39..=44 => self.unmap(),
            45..=48 => self.switch(),
            49..=53 if self.told.tables.len() < 256 => self.map_large(),
            49..=53 => self.map_section(),
            54..=64 if self.told.tables.len() > 256 => self.map_section(),
            54..=60 => self.plan_written_table(),
            61 | 62 => self.plan_reuse(),
            63 => self.plan_executed_table(),
            64 => self.forget(),
            _ => self.access(),
        };
        self.plan.push_back(call);
        self.plan.pop_front().unwrap_or(call)
    }

    fn block(&self, position: usize) -> u32 {
        self.told.first as u32 + position as u32
    }

    fn any_block(&mut self) -> u32 {
        let position = self.random.below(self.told.tables.len().min(32));
        self.block(position)
    }

    /// Some block of this kind in the region's first section, or else any.
    fn some(&mut self, code: u8) -> u32 {
        let first_section = 0..self.told.tables.len().min(256);
        let all: Vec<usize> = first_section.filter(|at| self.told.tables[*at] == code).collect();
        if all.is_empty() {
            return self.any_block();
        }
        let at = all[self.random.below(all.len())];
        self.block(at)
    }

    /// The first of four blocks that can be made an L1 table, or else any.
    fn some_group(&mut self) -> u32 {
        let tables = &self.told.tables;
        let fit = |group: &usize| {
            let bytes = &self.scene.store.memory[BLOCK * group..BLOCK * (group + 4)];
            tables[*group..group + 4] == [0; 4] && bytes.iter().skip(24).all(|byte| *byte == 0)
        };
        let groups: Vec<usize> = (0..tables.len().min(40) - 3).step_by(4).filter(fit).collect();
        match groups.len() {
            0 => self.some(0) & !3,
            count => {
                let group = groups[self.random.below(count)];
                self.block(group)
            }
        }
    }

    /// The first block of some L1 table.
    fn some_l1(&mut self) -> u32 {
        self.some(1) & !3
    }

    /// Begin with the same B or another, then fetches where something was mapped before.
    fn begin(&mut self) -> Call {
        let same = self.told.first as u32;
        let first = [same, same, same, 0, 0x100, 0x200, 0x700, 0xFF0, u32::MAX][self.random.below(9)];
        let pages = self.mapped();
        self.draw_kinds();
        self.plan.push_back(Call::new(Begin, &[first]));
        self.plan.extend(pages.into_iter().map(|page| Call::new(Fetch, &[page])));
        Call::new(Read, &[0])
    }

    fn anything(&mut self) -> Call {
        let calls =
            Kind::ALL.into_iter().filter(|call| ![Begin, Acknowledge].contains(call) && plain_call(*call).is_none());
        let kind = self.random.one_of(&calls.collect::<Vec<Kind>>());
        let mut arguments = [0; NUMBERS];
        for argument in &mut arguments[..RECORD_WORDS] {
            *argument = match self.random.below(4) {
                0 => self.random.next() as u32,
                1 => self.random.below(8) as u32,
                2 => self.random.below(4100) as u32,
                _ => self.told.first as u32 + self.random.below(16) as u32,
            };
        }
        Call { kind, arguments }
    }

    fn create(&mut self) -> Call {
        match self.random.below(3) {
            0 => Call::new(CreateL1, &[self.some_group()]),
            _ => Call::new(CreateL2, &[self.some(0)]),
        }
    }

    fn free(&mut self) -> Call {
        match self.random.below(2) {
            0 => Call::new(FreeL1, &[self.some_l1()]),
            _ => Call::new(FreeL2, &[self.some(2)]),
        }
    }

    fn rights(&mut self) -> u32 {
        [0, 1, 3, 3, 3, 5, 5, 7, 2, 8][self.random.below(10)]
    }

    fn map_page(&mut self) -> Call {
        let target = if self.random.below(4) == 0 { self.any_block() } else { self.some(0) };
        Call::new(MapL2, &[self.some(2), self.random.below(6) as u32, target, self.rights()])
    }

    fn map_large(&mut self) -> Call {
        let target = self.some_sixteen();
        Call::new(MapLarge, &[self.some(2), 16 * self.random.below(3) as u32, target, self.rights()])
    }

    /// The first of sixteen blocks among which there is no table, or else of any.
    fn some_sixteen(&mut self) -> u32 {
        let groups = (self.told.tables.len() / 16).clamp(1, 5);
        let free = |group: &usize| self.told.tables.chunks(16).nth(*group).is_some_and(|types| types == [0; 16]);
        let fit: Vec<usize> = (0..groups).filter(free).collect();
        let group = match fit.len() {
            0 => self.random.below(groups),
            _ if self.random.below(4) == 0 => self.random.below(groups),
            count => fit[self.random.below(count)],
        };
        self.block(16 * group)
    }

    /// An L2 block and the index of a run in it, or else any.
    fn some_run(&mut self) -> [u32; 2] {
        let tables = (0..self.told.tables.len()).filter(|at| self.told.tables[*at] == 2);
        let entries = tables.flat_map(|table| (0..3).map(move |run| (table, 16 * run)));
        let memory = &self.scene.store.memory;
        let runs: Vec<_> = entries.filter(|(table, index)| word(memory, BLOCK * table + 4 * index) % 4 == 1).collect();
        match runs.len() {
            0 => [self.some(2), 16 * self.random.below(3) as u32],
            count => {
                let (table, index) = runs[self.random.below(count)];
                [self.block(table), index as u32]
            }
        }
    }

    fn map_section(&mut self) -> Call {
        let sections = (self.told.tables.len() / 256).max(1);
        let section = self.random.below(sections);
        let target = self.block(256 * section);
        Call::new(MapL1, &[self.some_l1(), self.random.below(6) as u32, target, self.rights()])
    }

    fn link(&mut self) -> Call {
        Call::new(Link, &[self.some_l1(), self.random.below(6) as u32, self.some(2), self.random.below(2) as u32])
    }

    fn unmap(&mut self) -> Call {
        match self.random.below(8) {
            0 | 1 => Call::new(UnmapL1, &[self.some_l1(), self.random.below(6) as u32]),
            2 | 3 => Call::new(UnmapLarge, &self.some_run()),
            4 => Call::new(UnmapL2, &self.some_run()),
            _ => Call::new(UnmapL2, &[self.some(2), self.random.below(6) as u32]),
        }
    }

    /// One block or a few, at times the whole region.
    fn forget(&mut self) -> Call {
        let blocks = self.told.tables.len() as u32;
        match self.random.below(4) {
            0 => Call::new(Forget, &[self.told.first as u32, blocks]),
            1 => Call::new(Forget, &[self.any_block(), self.random.below(4) as u32]),
            _ => Call::new(Forget, &[self.any_block(), 1]),
        }
    }

    /// At a page of the active table a block is executed, then written, then executed again, with a forget in between or without.
    fn plan_reuse(&mut self) -> Call {
        let mapped = self.mapped();
        let pages: Vec<(u32, [u32; 2])> =
            mapped.into_iter().filter_map(|page| Some((page, self.small_page_at(page)?))).collect();
        if pages.is_empty() {
            return self.access();
        }
        let (page, [block, index]) = self.random.one_of(&pages);
        let target = self.some(0);
        let byte = self.random.next() as u32 * self.random.below(2) as u32;
        let (unmap, fetch) = (Call::new(UnmapL2, &[block, index]), Call::new(Fetch, &[page]));
        let map = |rights: u32| Call::new(MapL2, &[block, index, target, rights]);
        self.plan.extend([unmap, map(5), fetch, unmap, map(3), Call::new(Write, &[page, byte]), unmap]);
        if self.random.below(4) == 0 {
            self.plan.push_back(Call::new(Forget, &[target, 1]));
        }
        self.plan.extend([map(5), fetch]);
        Call::new(Read, &[page])
    }

    /// A signed block of a table is executed and no longer, then the monitor writes into it, and it is to be executed again.
    fn plan_executed_table(&mut self) -> Call {
        let tables = (0..self.told.tables.len()).filter(|at| self.told.tables[*at] != 0 && self.is_signed(*at));
        let (full, empty): (Vec<usize>, Vec<usize>) = tables.partition(|at| self.scene.entries(*at).next().is_some());
        let position = match (full.len(), empty.len()) {
            (0, 0) => return self.access(),
            (0, _) => self.random.one_of(&empty),
            _ => self.random.one_of(&full),
        };
        let (holder, index) = (self.some(2), self.random.below(6) as u32);
        let (execute, remove) =
            (Call::new(MapL2, &[holder, index, self.block(position), 5]), Call::new(UnmapL2, &[holder, index]));
        let write = self.write_into(position);
        self.plan.extend([remove, execute, remove, write, execute, remove]);
        Call::new(Read, &[0])
    }

    fn is_signed(&self, position: usize) -> bool {
        let contents = &self.scene.store.memory[BLOCK * position..BLOCK * (position + 1)];
        let digest = block_digest(self.block(position), contents);
        self.scene.store.golden.chunks_exact(32).any(|known| known == digest)
    }

    /// A call that changes a word of this block of a table: an entry that stands there is taken away, or one comes.
    fn write_into(&mut self, position: usize) -> Call {
        let is_l1 = self.told.tables[position] == 1;
        let quarter = if is_l1 { position % 4 } else { 0 };
        let table = self.block(position - quarter);
        let taken: Vec<usize> = self.scene.entries(position).collect();
        if !taken.is_empty() && self.random.below(2) == 0 {
            let index = self.random.one_of(&taken);
            let is_large = !is_l1 && self.scene.word(position, index) & 3 == 1;
            let index = (1024 * quarter + if is_large { index / 16 * 16 } else { index }) as u32;
            return Call::new(
                if is_l1 {
                    UnmapL1
                } else if is_large {
                    UnmapLarge
                } else {
                    UnmapL2
                },
                &[table, index],
            );
        }
        let (index, target, section) = (self.random.below(6) as u32, self.some(0), self.block(0));
        let l1_index = 1024 * quarter as u32 + index;
        match self.random.below(3) {
            0 if is_l1 => Call::new(MapL1, &[table, l1_index, section, 1]),
            _ if is_l1 => Call::new(Link, &[table, l1_index, self.some(2), 0]),
            0 => Call::new(MapLarge, &[table, 32, self.some_sixteen(), 1]),
            _ => Call::new(MapL2, &[table, index, target, 1]),
        }
    }

    /// The L2 block and the index of the entry at which the walk for an address ends, if it is a small page.
    fn small_page_at(&self, address: u32) -> Option<[u32; 2]> {
        let memory = &self.scene.store.memory;
        let table = self.told.switched? - self.told.first;
        let link = word(memory, BLOCK * table + 4 * (address as usize >> 20));
        let (block, index) = (link >> 12, 256 * (link >> 10 & 3) + (address >> 12 & 255));
        let position = (block as usize).checked_sub(self.told.first)?;
        let entry = word(memory, BLOCK * position + 4 * index as usize);
        (link & 3 == 1 && entry & 2 != 0).then_some([block, index])
    }

    /// A switch, and then a fetch where it could be fetched before.
    fn switch(&mut self) -> Call {
        let switch = Call::new(Switch, &[self.some_l1()]);
        let end = |page: &u32| self.told.walk(*page as usize, &self.scene.store.memory);
        let mut pages = self.mapped();
        pages.retain(|page| end(page).is_some_and(|(position, _)| self.scene.record(position, X) > 0));
        if pages.is_empty() {
            return switch;
        }
        self.plan.push_back(switch);
        Call::new(Fetch, &[self.random.one_of(&pages)])
    }

    /// An address that is likely to be mapped.
    fn address(&mut self) -> u32 {
        let page = self.random.one_of(&PAGES);
        (self.random.below(6) << 20 | self.random.below(4096)) as u32 | page << 12
    }

    fn access(&mut self) -> Call {
        let mapped = self.mapped();
        let address = match mapped.len() {
            0 => self.address(),
            _ if self.random.below(8) == 0 => self.address(),
            count => mapped[self.random.below(count)] | self.random.below(4096) as u32,
        };
        let byte = self.random.next() as u32;
        match self.random.below(8) {
            0 => Call::new(Write, &[address, byte]),
            1 => Call::new(Read, &[address]),
            2 => Call::new(Fetch, &[address]),
            _ => self.allowed(address, byte),
        }
    }

    /// An access that the counters of the walk's last block make likely to be allowed.
    fn allowed(&mut self, address: u32, byte: u32) -> Call {
        let end = self.told.walk(address as usize, &self.scene.store.memory);
        match end.map_or(0, |(position, _)| position) {
            position if self.scene.record(position, X) > 0 => Call::new(Fetch, &[address]),
            position if self.scene.record(position, W) > 0 => Call::new(Write, &[address, byte]),
            _ => Call::new(Read, &[address]),
        }
    }

    /// The pages near the start of the address space at which a walk has an end.
    fn mapped(&self) -> Vec<u32> {
        let pages = (0..6u32).flat_map(|l1| PAGES.map(|l2| l1 << 20 | l2 << 12));
        pages.filter(|page| self.told.walk(*page as usize, &self.scene.store.memory).is_some()).collect()
    }

    /// An L1 table, an L2 block, a link between them, and the switch.
    fn plan_table(&mut self) {
        let (table, pages) = (self.some_group(), self.some(0));
        let target = self.some(0);
        self.plan.extend([
            Call::new(CreateL1, &[table]),
            Call::new(CreateL2, &[pages]),
            Call::new(Link, &[table, 0, pages, 0]),
            Call::new(MapL2, &[pages, 1, target, 3]),
            Call::new(Switch, &[table]),
        ]);
    }

    /// The guest writes an entry into a data block, which is then unmapped and made a table: with all words of it zero or accepted, that may work.
    fn plan_written_table(&mut self) -> Call {
        let mapped = self.mapped();
        if mapped.is_empty() {
            return self.access();
        }
        let page = mapped[self.random.below(mapped.len())];
        let Some((position, _)) = self.told.walk(page as usize, &self.scene.store.memory) else { return self.access() };
        let index = self.random.below(6) as u32;
        if self.told.tables.len() > 32 && self.random.below(4) == 0 {
            self.plan_written_run(page);
        } else {
            let target = self.any_block() << 12;
            let low = [PAGE_NONE, PAGE_READ, PAGE_WRITE, PAGE_EXECUTE, PAGE_ALL, 0, 1][self.random.below(7)];
            self.plan_written_word(page + 4 * index, target | low);
        }
        self.plan_unmap_all(position);
        self.plan.push_back(Call::new(CreateL2, &[self.block(position)]));
        Call::new(Read, &[page + 4 * index])
    }

    fn plan_written_word(&mut self, address: u32, word: u32) {
        for (k, byte) in (0..).zip(word.to_le_bytes()) {
            self.plan.push_back(Call::new(Write, &[address + k, u32::from(byte) | 0x5500]));
        }
    }

    /// The words of a large page, at times one too few.
    fn plan_written_run(&mut self, page: u32) {
        let low = self.random.one_of(&[LARGE_NONE, LARGE_READ, LARGE_WRITE, LARGE_WRITE, LARGE_EXECUTE, LARGE_EXECUTE]);
        let word = self.some_sixteen() << 12 | low;
        let first = 16 * self.random.below(3) as u32;
        let count = if self.random.below(4) == 0 { 15 } else { 16 };
        (first..first + count).for_each(|index| self.plan_written_word(page + 4 * index, word));
    }

    /// Unmaps the pages, small and large, that lead to a block.
    fn plan_unmap_all(&mut self, position: usize) {
        let block = self.block(position);
        for (table, _) in self.told.tables.iter().enumerate().filter(|(_, code)| **code == 2) {
            for index in 0..1024 {
                let entry = word(&self.scene.store.memory, BLOCK * table + 4 * index);
                let arguments = [self.told.first as u32 + table as u32, index as u32];
                if entry & 2 != 0 && entry >> 12 == block {
                    self.plan.push_back(Call::new(UnmapL2, &arguments));
                }
                if entry & 3 == 1 && entry >> 16 == block >> 4 && index % 16 == 0 {
                    self.plan.push_back(Call::new(UnmapLarge, &arguments));
                }
            }
        }
    }
}

/// Four blocks: zeros, the beginning of an L1 table, or data and beginnings of L2 tables. Some are signed.
fn put_group(scene: &mut Scene, group: usize, random: &mut Random) {
    match random.below(5) {
        0 | 1 => {}
        2 => put_l1_table(scene, group, random),
        _ => {
            for position in group..group + 4 {
                match random.below(4) {
                    0 => scene.fill(position, random),
                    1 => put_page_table(scene, position, random),
                    _ => {}
                }
            }
        }
    }
    for position in group..group + 4 {
        if random.below(3) == 0 {
            scene.sign(position);
        }
    }
}

/// Links and sections that may become acceptable.
fn put_l1_table(scene: &mut Scene, position: usize, random: &mut Random) {
    for index in 0..random.below(3) {
        let target = random.below(scene.blocks());
        let word = match random.below(3) {
            0 if scene.blocks() >= 256 => scene.mapping(0, [SECTION_NONE, SECTION_READ][random.below(2)]),
            _ => scene.link(target, random.below(2) as u32),
        };
        scene.put(position, index, word);
    }
}

/// A block that can be made an L2 block: a few pages near the region's start, and large pages, seldom with one word too few.
fn put_page_table(scene: &mut Scene, position: usize, random: &mut Random) {
    for _ in 0..random.below(3) * usize::from(scene.blocks() >= 16) {
        let target = 16 * random.below(scene.blocks() / 16);
        let low = [LARGE_NONE, LARGE_READ, LARGE_READ, LARGE_WRITE, LARGE_EXECUTE][random.below(5)];
        let index = 16 * (1 + random.below(2));
        scene.put_run(position, index, scene.mapping(target, low));
        if random.below(8) == 0 {
            scene.put(position, index + random.below(16), 0);
        }
    }
    for _ in 0..random.below(5) {
        let target = random.below(scene.blocks());
        let low = [PAGE_NONE, PAGE_READ, PAGE_WRITE, PAGE_EXECUTE][random.below(4)];
        scene.put(position, random.below(6), scene.mapping(target, low));
    }
    if random.below(4) == 0 {
        scene.put(position, 5, scene.mapping(position, PAGE_EXECUTE));
    }
}
