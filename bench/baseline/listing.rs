//! The listing of a scenario.
use crate::decimal;
use crate::output::Output;
use crate::scenario::{Actor, Flags, Instr, Line, Name, Op, Queue, Scenario};

/// The words of the flags, in the order of the listing.
const FLAGS: [(Flags, &[u8]); 6] = [
    (Flags::HIGHPRI, b" highpri"),
    (Flags::UNBOUND, b" unbound"),
    (Flags::CPU_INTENSIVE, b" cpu_intensive"),
    (Flags::FREEZABLE, b" freezable"),
    (Flags::ORDERED, b" ordered"),
    (Flags::MEM_RECLAIM, b" mem_reclaim"),
];

/// Room for each line: the longest has a queue's name with all of its flags.
const ROOM: usize = 128;

/// Writes the listing of a scenario.
pub fn list(scenario: &Scenario, output: &mut Output) {
    let mut listing = Listing { scenario, output };
    listing.head();
    for queue in &scenario.queues {
        listing.queue(queue);
    }
    for work in &scenario.works {
        let queue = &scenario.queues[work.queue as usize];
        listing.line(|text| text.word(b"work ").name(work.name).word(b" ").name(queue.name));
    }
    for work in &scenario.works {
        listing.line(|text| text.word(b"body ").name(work.name));
        listing.body(work.body as usize);
    }
    for actor in &scenario.actors {
        listing.actor(actor);
    }
}

/// A line that is being written.
struct Text<'b> {
    bytes: &'b mut [u8; ROOM],
    at: usize,
}

impl Text<'_> {
    #[inline]
    fn word<const N: usize>(mut self, word: &[u8; N]) -> Self {
        self.bytes[self.at..self.at + N].copy_from_slice(word);
        self.at += N;
        self
    }

    #[inline]
    fn name(mut self, name: Name) -> Self {
        self.bytes[self.at..self.at + 16].copy_from_slice(&name.bytes());
        self.at += name.len();
        self
    }

    #[inline]
    fn number(mut self, number: u32) -> Self {
        self.at = decimal::put(self.bytes, self.at, u64::from(number));
        self
    }

    /// A blank and the number.
    #[inline]
    fn and(self, number: u32) -> Self {
        self.word(b" ").number(number)
    }
}

/// A listing that is being written.
struct Listing<'s, 'o> {
    scenario: &'s Scenario,
    output: &'o mut Output,
}

impl Listing<'_, '_> {
    /// Writes a line.
    #[inline]
    fn line(&mut self, write: impl FnOnce(Text) -> Text) {
        let len = {
            let text = write(Text { bytes: self.output.room(), at: 0 });
            text.word(b"\n").at
        };
        self.output.wrote(len);
    }

    fn head(&mut self) {
        let scenario = self.scenario;
        self.line(|text| text.word(b"cpus ").number(scenario.cpus.into()));
        self.line(|text| text.word(b"workers ").number(scenario.workers.into()));
        self.line(|text| text.word(b"steps ").number(scenario.steps));
        self.line(|text| text.word(b"flushes ").number(scenario.flushes.into()));
    }

    fn queue(&mut self, queue: &Queue) {
        self.line(|text| {
            let mut text = text.word(b"queue ").name(queue.name).word(b" max ").number(queue.max.into());
            for (flag, word) in FLAGS {
                if queue.flags.has(flag) {
                    text.bytes[text.at..text.at + word.len()].copy_from_slice(word);
                    text.at += word.len();
                }
            }
            text
        });
    }

    fn body(&mut self, start: usize) {
        let scenario = self.scenario;
        let name_of = |work: u8| scenario.works[work as usize].name;
        for op in &scenario.ops[start..] {
            match *op {
                Op::Burn(ticks) => self.line(|text| text.word(b"burn ").number(ticks)),
                Op::Sleep(ticks) => self.line(|text| text.word(b"sleep ").number(ticks)),
                Op::Queue { work, cpu } => self.line(|text| text.word(b"queue ").name(name_of(work)).and(cpu.into())),
                Op::Delay { work, ticks } => self.line(|text| text.word(b"delay ").name(name_of(work)).and(ticks)),
                Op::Mod { work, ticks } => self.line(|text| text.word(b"mod ").name(name_of(work)).and(ticks)),
                Op::Cancel(work) => self.line(|text| text.word(b"cancel ").name(name_of(work))),
                Op::Finish => {
                    self.line(|text| text.word(b"finish"));
                    return;
                }
            }
        }
    }

    fn actor(&mut self, actor: &Actor) {
        self.line(|text| text.word(b"actor ").name(actor.name));
        let scenario = self.scenario;
        for &Line { instr, times } in &actor.lines {
            self.line(|text| {
                let text = put_instr(scenario, text, instr);
                if times > 1 { text.word(b" * ").number(times) } else { text }
            });
        }
    }
}

/// Writes an instruction as its line has it.
#[inline]
fn put_instr<'b>(scenario: &Scenario, text: Text<'b>, instr: Instr) -> Text<'b> {
    let of_work = |work: u8| scenario.works[work as usize].name;
    let of_queue = |queue: u8| scenario.queues[queue as usize].name;
    match instr {
        Instr::Queue { work, cpu } => text.word(b"queue ").name(of_work(work)).and(cpu.into()),
        Instr::Delay { work, cpu, ticks } => text.word(b"delay ").name(of_work(work)).and(cpu.into()).and(ticks),
        Instr::Mod { work, cpu, ticks } => text.word(b"mod ").name(of_work(work)).and(cpu.into()).and(ticks),
        Instr::Cancel(work) => text.word(b"cancel ").name(of_work(work)),
        Instr::CancelSync(work) => text.word(b"cancel_sync ").name(of_work(work)),
        Instr::Flush(work) => text.word(b"flush ").name(of_work(work)),
        Instr::FlushDelayed(work) => text.word(b"flush_delayed ").name(of_work(work)),
        Instr::FlushQueue(queue) => text.word(b"flush_queue ").name(of_queue(queue)),
        Instr::SetMax { queue, max } => text.word(b"set_max ").name(of_queue(queue)).and(max),
        Instr::Freeze => text.word(b"freeze"),
        Instr::Thaw => text.word(b"thaw"),
        Instr::Fire => text.word(b"fire"),
        Instr::Step(pool) => text.word(b"step").and(pool.into()),
        Instr::Tick => text.word(b"tick"),
        Instr::Next => text.word(b"next"),
        Instr::Ask(flush) => text.word(b"ask").and(flush.into()),
        Instr::Busy => text.word(b"busy"),
        Instr::State(work) => text.word(b"state ").name(of_work(work)),
        Instr::Disable(work) => text.word(b"disable ").name(of_work(work)),
        Instr::Enable(work) => text.word(b"enable ").name(of_work(work)),
        Instr::Pressure => text.word(b"pressure"),
        Instr::Relief => text.word(b"relief"),
        Instr::Until(time) => text.word(b"until").and(time),
        Instr::Wait(flush) => text.word(b"wait").and(flush.into()),
        Instr::Quiet => text.word(b"quiet"),
    }
}
