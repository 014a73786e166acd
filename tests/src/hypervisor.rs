//! Lists on the box (RULES: box): the guest's processor writes by itself, and the hypervisor forgets the blocks that it lets the guest write.
use crate::compare::{self, difference, Comparer};
use crate::demand::{Before, Breach, Told};
use crate::lists::{lists, Lister};
use crate::monitor::{Call, Given, Kind, Monitor, Store, REGISTERS_BYTES};
use crate::outcome::{Lent, Outcome, Outcomes};
use crate::reference::Reference;
use std::collections::{BTreeSet, VecDeque};
use std::convert::Infallible;

/// What a hypervisor does after an accepted create or map that lets the guest write (box 2).
#[derive(Clone, Copy, PartialEq, Eq, Debug)]
pub enum Duty {
    /// It forgets the blocks that the call lets the guest write.
    Blocks,
    /// It forgets the whole region.
    Region,
    /// It forgets nothing.
    Neglected,
}

impl Duty {
    /// The forgets that are due after an accepted call, which has left this memory.
    fn due(self, told: &Told, call: Call, memory: &[u8]) -> Vec<Call> {
        let forget = |first: usize, count: usize| Call::new(Kind::Forget, &[first as u32, count as u32]);
        let granted = told.granted_to_write(call, memory);
        match self {
            Duty::Blocks => granted.into_iter().map(|(first, count)| forget(first, count)).collect(),
            Duty::Region if !granted.is_empty() => vec![forget(told.first, told.tables.len())],
            _ => Vec::new(),
        }
    }
}

/// A write as the guest's processor makes it: memory is what the call would leave, ledger and fault registers stay as they were (box 1). The call would
/// be lent as many registers as it asks for.
fn processor_writes(call: Call, store: &mut Store) -> Given {
    let written = Reference::new().outcome(call, Lent { registers: &[0; REGISTERS_BYTES], ..(&*store).into() });
    Outcome { ledger: Vec::new(), registers: Vec::new(), ..written }.apply(store)
}

/// Takes a step on the box, and the forgets that are due then. A write is the processor's, and `perform` makes all other calls. Gives what lists 7 to 12
/// and 14 to 16 say against these steps.
pub fn take<E>(
    duty: Duty,
    call: Call,
    store: &mut Store,
    told: &mut Told,
    mut perform: impl FnMut(Call, &mut Store) -> Result<Given, E>,
) -> Result<(Given, Vec<Breach>), E> {
    let (mut all, mut breaches, mut due) = (Vec::new(), Vec::new(), VecDeque::from([call]));
    while let Some(step) = due.pop_front() {
        let before = Before::from(&*store);
        let given = match step.kind {
            Kind::Write => processor_writes(step, store),
            _ => perform(step, store)?,
        };
        breaches.extend(told.step(step, given, &before, store));
        if given.answer == 0 {
            due.extend(duty.due(told, step, &store.memory));
        }
        all.push(given);
    }
    Ok((all[0], breaches))
}

/// Compares every call of the lists on a box where the duty is done, and holds lists 7 to 12 and 14 to 16 against every step.
pub fn run(comparer: &mut Comparer) -> compare::Outcome {
    for (seed, blocks, steps) in lists() {
        let duty = [Duty::Blocks, Duty::Region][seed as usize % 2];
        let mut lister = Lister::new(seed, blocks);
        for step in 0..=steps {
            let call = lister.next();
            let name = format!("list {seed} of {blocks} blocks on the box, step {step}");
            let (store, told) = (&mut lister.scene.store, &mut lister.told);
            let (_, breaches) = take(duty, call, store, told, |call, store| comparer.step(&name, call, store))?;
            if let Some(breach) = breaches.first() {
                return Err(difference(&name, call, breach.to_string()));
            }
        }
    }
    Ok(())
}

/// For each list on the box, the clauses of lists 7 to 12 and 14 to 16 that the monitor breaks.
pub fn broken_by(monitor: &dyn Monitor, duty: Duty) -> impl Iterator<Item = BTreeSet<u32>> + '_ {
    lists().map(move |(seed, blocks, steps)| {
        let mut lister = Lister::new(seed, blocks);
        let mut broken = BTreeSet::new();
        for _ in 0..=steps {
            let call = lister.next();
            let (store, told) = (&mut lister.scene.store, &mut lister.told);
            let perform = |call, store: &mut Store| Ok::<Given, Infallible>(monitor.perform(call, store));
            let Ok((_, breaches)) = take(duty, call, store, told, perform);
            broken.extend(breaches.iter().map(|breach| breach.clause));
        }
        broken
    })
}
