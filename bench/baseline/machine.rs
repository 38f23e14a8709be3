//! A machine: its state, and the single changes of which instructions are made.
use crate::heap::{Heap, Stamps, by_time_and_stamp};
use crate::lines::Lines;
use crate::lists::{Lists, Row};
use crate::scenario::{Flags, POOLS, QUEUES, Scenario, WORKERS, WORKS};

/// The number of a rescuer, which no worker of a pool has.
pub const RESCUER: u8 = 255;

/// Where a pending work waits.
#[derive(Clone, Copy)]
pub enum Place {
    /// It isn't pending.
    Idle,
    /// A timer runs until `due`, and then places it on `cpu`.
    Timer { due: u64, cpu: u8 },
    /// Its queue has no room in this pool.
    Inactive(u8),
    /// It is on the worklist of this pool.
    Listed(u8),
    /// It starts again in this pool when it has finished there.
    Deferred(u8),
}

/// What a running work does.
#[derive(Clone, Copy)]
pub enum Run {
    /// It doesn't run.
    Still,
    /// It has nothing left to burn.
    Ready,
    /// It burns up to this time.
    Burning { end: u64 },
    /// It has so much left to burn, while its CPU's high pool has the CPU.
    Paused { left: u64 },
    /// It sleeps, or has slept, up to this time.
    Asleep { until: u64 },
}

/// A work.
#[derive(Clone, Copy)]
pub struct Work {
    pub place: Place,
    pub run: Run,
    /// Of its pending half and of its running half, the stamp of the queueing.
    pub pending_born: u64,
    pub running_born: u64,
    /// The stamp of its running half.
    pub stamp: u64,
    /// Which operation comes next, among those of all works.
    pub pc: u32,
    /// How much more often it was disabled than enabled.
    pub depth: u16,
    /// Where it runs.
    pub pool: u8,
    pub worker: u8,
}

impl Work {
    /// A work that does nothing.
    const IDLE: Work = Work {
        place: Place::Idle,
        run: Run::Still,
        pending_born: 0,
        running_born: 0,
        stamp: 0,
        pc: 0,
        depth: 0,
        pool: 0,
        worker: 0,
    };

    /// Whether it runs.
    #[inline]
    pub fn runs(&self) -> bool {
        !matches!(self.run, Run::Still)
    }

    /// Whether it pends.
    #[inline]
    pub fn pends(&self) -> bool {
        !matches!(self.place, Place::Idle)
    }

    /// Whether its pending half stands in a pool.
    #[inline]
    pub fn is_placed(&self) -> bool {
        matches!(self.place, Place::Inactive(_) | Place::Listed(_) | Place::Deferred(_))
    }
}

/// What stays as it is of a work.
#[derive(Clone, Copy)]
pub struct Role {
    /// Where its body begins.
    pub body: u32,
    pub queue: u8,
    /// Its pool on CPU 0, and how many pools further that on the next CPU is.
    first_pool: u8,
    pools_apart: u8,
    /// Whether it counts for the concurrency level of its pool while it is runnable.
    pub is_counted: bool,
}

/// A queue.
#[derive(Clone, Copy)]
pub struct Queue {
    pub max: u16,
    /// How many of its works may be active in a pool now.
    pub limit: u16,
    pub flags: Flags,
    /// In which pools it has inactive works, a bit each.
    pub waiting: u64,
    /// Its rescuer is there, and free.
    pub has_free_rescuer: bool,
}

/// A worker pool.
#[derive(Clone, Copy)]
pub struct Pool {
    /// Of a CPU's pool the runnable works; the first of them has the CPU, if the pool has it.
    pub runnable: Row,
    /// The works that have slept.
    pub slept: Row,
    /// The idle workers; that which became idle last stands last.
    idle: [u8; WORKERS],
    idle_count: u8,
    /// How many workers were made.
    made: u8,
    /// The concurrency level.
    pub counted: u8,
}

/// What a flush waits for.
pub enum Flush {
    Nothing,
    Instance { work: u8, born: u64 },
    /// The instances of the queue that were born before the bound. None of the first `done` works of the queue has one any more.
    Queue { queue: u8, bound: u64, done: u16 },
}

/// A machine.
pub struct Machine<'s> {
    pub scenario: &'s Scenario,
    pub lines: Lines,
    pub time: u64,
    /// How many instructions can still be accepted, questions aside.
    pub steps_left: u32,
    pub frozen: bool,
    pub pressed: bool,
    /// The next stamp.
    pub next: u64,
    /// The pools that may have a move, a bit each; no other one has a move.
    pub mask: u64,
    /// The number of the first unbound pool.
    pub unbound: u8,
    pub works: [Work; WORKS],
    pub roles: [Role; WORKS],
    pub queues: [Queue; QUEUES],
    pub pools: [Pool; POOLS],
    /// Of the unbound pools the runnable works that have nothing left to burn.
    pub ready: [Stamps; 2],
    /// Of each queue in each pool how many of its works are active.
    active: [[u16; POOLS]; QUEUES],
    /// The worklists of the pools, and behind these the inactive works of each queue in each pool.
    pub lists: Lists,
    /// Delayed works, by due time and stamp.
    pub timers: Heap<u128>,
    /// Those that burn or sleep, by the times at which that ends.
    pub alarms: Heap<u64>,
    /// How many works of freezable queues are active.
    pub busy: u32,
    /// How many works pend, and how many run, together. Where there are none the machine is quiet.
    pub at_work: u32,
    pub flushes: Vec<Flush>,
    /// The works of each queue.
    pub members: Vec<Vec<u8>>,
    /// Whether some queue has a rescuer.
    pub has_rescuers: bool,
}

/// The list of the queue's inactive works in the pool.
fn inactive_list(queue: u8, pool: u8) -> usize {
    POOLS + queue as usize * POOLS + pool as usize
}

fn roles_of(scenario: &Scenario) -> [Role; WORKS] {
    let mut roles = [Role { body: 0, queue: 0, first_pool: 0, pools_apart: 0, is_counted: false }; WORKS];
    for (role, work) in roles.iter_mut().zip(&scenario.works) {
        let flags = scenario.queues[work.queue as usize].flags;
        let is_unbound = flags.has(Flags::UNBOUND.with(Flags::ORDERED));
        *role = Role {
            body: work.body,
            queue: work.queue,
            first_pool: if is_unbound { 2 * scenario.cpus } else { 0 } + u8::from(flags.has(Flags::HIGHPRI)),
            pools_apart: if is_unbound { 0 } else { 2 },
            is_counted: !is_unbound && !flags.has(Flags::CPU_INTENSIVE),
        };
    }
    roles
}

fn new_queues(scenario: &Scenario) -> [Queue; QUEUES] {
    let none = Queue { max: 0, limit: 0, flags: Flags::default(), waiting: 0, has_free_rescuer: false };
    let mut queues = [none; QUEUES];
    for (queue, declared) in queues.iter_mut().zip(&scenario.queues) {
        queue.max = declared.max;
        queue.limit = declared.max;
        queue.flags = declared.flags;
        queue.has_free_rescuer = declared.flags.has(Flags::MEM_RECLAIM);
    }
    queues
}

impl<'s> Machine<'s> {
    /// The machine with which a scenario begins.
    pub fn new(scenario: &'s Scenario, lines: Lines) -> Machine<'s> {
        let pool = Pool { runnable: Row::EMPTY, slept: Row::EMPTY, idle: [0; WORKERS], idle_count: 0, made: 0, counted: 0 };
        let mut members = vec![Vec::new(); scenario.queues.len()];
        for (number, work) in scenario.works.iter().enumerate() {
            members[work.queue as usize].push(number as u8);
        }
        Machine {
            scenario,
            lines,
            time: 0,
            steps_left: scenario.steps,
            frozen: false,
            pressed: false,
            next: 0,
            mask: 0,
            unbound: 2 * scenario.cpus,
            works: [Work::IDLE; WORKS],
            roles: roles_of(scenario),
            queues: new_queues(scenario),
            pools: [pool; POOLS],
            ready: [Stamps::new(), Stamps::new()],
            active: [[0; POOLS]; QUEUES],
            lists: Lists::new(POOLS + POOLS * scenario.queues.len()),
            timers: Heap::new(),
            alarms: Heap::new(),
            busy: 0,
            at_work: 0,
            flushes: Vec::new(),
            members,
            has_rescuers: scenario.queues.iter().any(|queue| queue.flags.has(Flags::MEM_RECLAIM)),
        }
    }

    /// Takes the next stamp.
    #[inline]
    pub fn stamp(&mut self) -> u64 {
        self.next += 1;
        self.next - 1
    }

    /// Says that the pool may have a move.
    #[inline]
    pub fn mark(&mut self, pool: u8) {
        self.mask |= 1 << pool;
    }

    /// Says that each pool may have a move.
    pub fn mark_all(&mut self) {
        self.mask = (1 << (self.unbound + 2)) - 1;
    }

    /// Counts a work of the queue as active in the pool.
    #[inline]
    fn count_active(&mut self, queue: u8, pool: u8) {
        self.active[queue as usize][pool as usize] += 1;
        self.busy += u32::from(self.queues[queue as usize].flags.has(Flags::FREEZABLE));
    }

    /// Counts one active work less of the queue in the pool.
    #[inline]
    pub fn discount_active(&mut self, queue: u8, pool: u8) {
        self.active[queue as usize][pool as usize] -= 1;
        self.busy -= u32::from(self.queues[queue as usize].flags.has(Flags::FREEZABLE));
    }

    #[inline]
    fn has_room(&self, queue: u8, pool: u8) -> bool {
        self.active[queue as usize][pool as usize] < self.queues[queue as usize].limit
    }

    /// Puts a work behind the worklist of the pool.
    #[inline]
    fn enlist(&mut self, work: u8, queue: u8, pool: u8) {
        self.works[work as usize].place = Place::Listed(pool);
        self.lists.push(pool as usize, work);
        self.count_active(queue, pool);
        self.mark(pool);
    }

    /// Places a work that doesn't pend, from a CPU.
    pub fn place(&mut self, number: u8, cpu: u8) {
        let born = self.stamp();
        let Role { queue, first_pool, pools_apart, .. } = self.roles[number as usize];
        let work = &mut self.works[number as usize];
        // It goes where it runs, else to its queue's pool.
        let pool = if work.runs() { work.pool } else { first_pool + pools_apart * cpu };
        work.pending_born = born;
        self.at_work += 1;
        if self.has_room(queue, pool) {
            self.enlist(number, queue, pool);
        } else {
            self.works[number as usize].place = Place::Inactive(pool);
            self.lists.push(inactive_list(queue, pool), number);
            self.queues[queue as usize].waiting |= 1 << pool;
        }
    }

    /// Places a work that doesn't pend, or sets its timer.
    #[inline]
    pub fn place_after(&mut self, number: u8, cpu: u8, ticks: u32) {
        if ticks == 0 {
            return self.place(number, cpu);
        }
        let stamp = self.stamp();
        let due = self.time + u64::from(ticks);
        self.works[number as usize].place = Place::Timer { due, cpu };
        self.at_work += 1;
        self.timers.add(by_time_and_stamp(due, stamp, number));
    }

    /// Places a work, or sets its timer, in place of what it waited for. Says whether it was pending.
    #[inline(always)]
    pub fn place_anew(&mut self, number: u8, cpu: u8, ticks: u32) -> bool {
        let work = &mut self.works[number as usize];
        match work.place {
            Place::Timer { .. } if ticks > 0 => {
                let due = self.time + u64::from(ticks);
                work.place = Place::Timer { due, cpu };
                let stamp = self.stamp();
                self.timers.change(by_time_and_stamp(due, stamp, number));
            }
            Place::Idle => {
                self.place_after(number, cpu, ticks);
                return false;
            }
            _ => {
                self.take_off(number);
                self.place_after(number, cpu, ticks);
            }
        }
        true
    }

    /// Activates inactive works of the queue in the pool, while there is room.
    #[inline]
    pub fn fill(&mut self, queue: u8, pool: u8) {
        if self.queues[queue as usize].waiting & 1 << pool != 0 {
            self.fill_waiting(queue, pool);
        }
    }

    fn fill_waiting(&mut self, queue: u8, pool: u8) {
        while self.has_room(queue, pool) {
            let Some(work) = self.lists.first(inactive_list(queue, pool)) else { return };
            self.take_inactive(work, queue, pool);
            self.enlist(work, queue, pool);
        }
    }

    /// Activates inactive works of the queue in each pool, while there is room.
    pub fn fill_everywhere(&mut self, queue: u8) {
        let mut waiting = self.queues[queue as usize].waiting;
        while waiting != 0 {
            self.fill_waiting(queue, waiting.trailing_zeros() as u8);
            waiting &= waiting - 1;
        }
    }

    #[inline]
    fn take_inactive(&mut self, work: u8, queue: u8, pool: u8) {
        self.lists.take(work);
        if self.lists.first(inactive_list(queue, pool)).is_none() {
            self.queues[queue as usize].waiting &= !(1 << pool);
        }
    }

    /// Takes a work off, so that it doesn't pend any more, and fills what it leaves. Says whether it was pending.
    pub fn take_off(&mut self, number: u8) -> bool {
        let queue = self.roles[number as usize].queue;
        match std::mem::replace(&mut self.works[number as usize].place, Place::Idle) {
            Place::Idle => return false,
            Place::Timer { .. } => self.timers.take(number),
            // Where a work is inactive there is no room, and then there is nothing to fill.
            Place::Inactive(pool) => self.take_inactive(number, queue, pool),
            Place::Listed(pool) => {
                self.lists.take(number);
                self.discount_active(queue, pool);
                self.mark(pool);
                self.fill(queue, pool);
            }
            Place::Deferred(pool) => {
                self.discount_active(queue, pool);
                self.fill(queue, pool);
            }
        }
        self.at_work -= 1;
        true
    }

    /// The work's timer fires, which places it.
    pub fn fire(&mut self, work: u8, cpu: u8) {
        self.timers.take(work);
        self.at_work -= 1;
        self.place(work, cpu);
    }

    /// Whether the pool has a worker that could take a work.
    #[inline]
    pub fn has_worker(&self, pool: u8) -> bool {
        let pool = &self.pools[pool as usize];
        pool.idle_count > 0 || !self.pressed && pool.made < self.scenario.workers
    }

    /// The worker of the pool that takes the next work: that which became idle last, else a new one.
    #[inline]
    pub fn take_worker(&mut self, pool: u8) -> u8 {
        let pool = &mut self.pools[pool as usize];
        if pool.idle_count > 0 {
            pool.idle_count -= 1;
            pool.idle[pool.idle_count as usize % WORKERS]
        } else {
            pool.made += 1;
            pool.made - 1
        }
    }

    /// The worker of the pool becomes idle.
    #[inline]
    pub fn give_back(&mut self, pool: u8, worker: u8) {
        let pool = &mut self.pools[pool as usize];
        pool.idle[pool.idle_count as usize % WORKERS] = worker;
        pool.idle_count += 1;
    }

    /// Whether the work has a placed or a running instance that was born so.
    #[inline]
    fn has_instance(&self, work: u8, born: impl Fn(u64) -> bool) -> bool {
        let work = &self.works[work as usize];
        work.is_placed() && born(work.pending_born) || work.runs() && born(work.running_born)
    }

    /// Whether the flush is done.
    #[inline(always)]
    pub fn is_done(&mut self, number: usize) -> bool {
        match self.flushes[number] {
            Flush::Nothing => true,
            Flush::Instance { work, born } => !self.has_instance(work, |it| it == born),
            Flush::Queue { queue, bound, done } => {
                let members = &self.members[queue as usize];
                let is_left = |&work: &u8| self.has_instance(work, |born| born < bound);
                // No work gets an instance that was born before the bound, so those that were passed stay so.
                match members[done as usize..].iter().position(is_left) {
                    None => {
                        self.flushes[number] = Flush::Nothing;
                        true
                    }
                    Some(further) => {
                        self.flushes[number] = Flush::Queue { queue, bound, done: done + further as u16 };
                        false
                    }
                }
            }
        }
    }
}
