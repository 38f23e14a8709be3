//! What a scenario says: the size of its machine, its queues, its works and its actors.

/// The most works; a work's number fits a byte.
pub const WORKS: usize = 256;

/// The most queues.
pub const QUEUES: usize = 32;

/// The most actors.
pub const ACTORS: usize = 16;

/// The most worker pools: two for each of 16 CPUs, and two unbound ones.
pub const POOLS: usize = 34;

/// The most workers of a pool.
pub const WORKERS: usize = 64;

/// A name of 1 to 15 bytes, the first in the lowest bits; the bits behind its end are zero.
#[derive(Clone, Copy, PartialEq, Eq)]
pub struct Name(pub u128);

impl Name {
    /// The name's bytes, with zeros behind its end.
    #[inline]
    pub fn bytes(self) -> [u8; 16] {
        self.0.to_le_bytes()
    }

    /// How many bytes it has.
    #[inline]
    pub fn len(self) -> usize {
        16 - self.0.leading_zeros() as usize / 8
    }
}

/// A queue's flags, a bit each, in the order of the listing.
#[derive(Clone, Copy, Default)]
pub struct Flags(pub u8);

impl Flags {
    pub const HIGHPRI: Flags = Flags(1);
    pub const UNBOUND: Flags = Flags(2);
    pub const CPU_INTENSIVE: Flags = Flags(4);
    pub const FREEZABLE: Flags = Flags(8);
    pub const ORDERED: Flags = Flags(16);
    pub const MEM_RECLAIM: Flags = Flags(32);

    /// Whether it has one of these flags.
    pub fn has(self, flags: Flags) -> bool {
        self.0 & flags.0 != 0
    }

    /// With these flags, too.
    pub fn with(self, flags: Flags) -> Flags {
        Flags(self.0 | flags.0)
    }
}

/// A queue.
pub struct Queue {
    pub name: Name,
    pub max: u16,
    pub flags: Flags,
}

/// One operation of a body.
#[derive(Clone, Copy)]
pub enum Op {
    /// Burns so many ticks of CPU time.
    Burn(u32),
    /// Sleeps for so many ticks.
    Sleep(u32),
    /// Queues a work on a CPU.
    Queue { work: u8, cpu: u8 },
    /// Queues a work after so many ticks, on the CPU where the body runs.
    Delay { work: u8, ticks: u32 },
    /// The same, and anew where it pends.
    Mod { work: u8, ticks: u32 },
    /// Takes a work off.
    Cancel(u8),
    /// Ends the body.
    Finish,
}

/// A work.
pub struct Work {
    pub name: Name,
    pub queue: u8,
    /// Where its body begins among the operations of all works.
    pub body: u32,
}

/// An instruction of an actor.
#[derive(Clone, Copy)]
pub enum Instr {
    Queue { work: u8, cpu: u8 },
    Delay { work: u8, cpu: u8, ticks: u32 },
    Mod { work: u8, cpu: u8, ticks: u32 },
    Cancel(u8),
    CancelSync(u8),
    Flush(u8),
    FlushDelayed(u8),
    FlushQueue(u8),
    SetMax { queue: u8, max: u32 },
    Freeze,
    Thaw,
    Fire,
    Step(u8),
    Tick,
    Next,
    Ask(u16),
    Busy,
    State(u8),
    Disable(u8),
    Enable(u8),
    Pressure,
    Relief,
    Until(u32),
    Wait(u16),
    Quiet,
}

/// A line of an actor: an instruction, and how often it stands.
#[derive(Clone, Copy)]
pub struct Line {
    pub instr: Instr,
    pub times: u32,
}

/// An actor.
pub struct Actor {
    pub name: Name,
    pub lines: Vec<Line>,
}

/// A scenario.
pub struct Scenario {
    pub cpus: u8,
    pub workers: u8,
    pub steps: u32,
    pub flushes: u16,
    pub queues: Vec<Queue>,
    pub works: Vec<Work>,
    /// The operations of all works, body after body.
    pub ops: Vec<Op>,
    pub actors: Vec<Actor>,
}
