//! The instructions of an actor.
use crate::lines::Line;
use crate::machine::{Flush, Machine, Place, RESCUER, Run};
use crate::scenario::{self, Flags, Instr};

/// Reason an instruction was refused, as its line says it.
struct Reason {
    text: [u8; 24],
    len: u8,
}

/// A refusal.
type Refusal = &'static Reason;

impl Reason {
    const fn named(name: &str) -> Reason {
        let (mut text, mut at) = (*b"refused                 ", 8);
        while at < 8 + name.len() {
            text[at] = name.as_bytes()[at - 8];
            at += 1;
        }
        text[at] = b'\n';
        Reason { text, len: at as u8 + 1 }
    }
}

static NO_SUCH_CPU: Reason = Reason::named("NoSuchCpu");
static NO_SUCH_POOL: Reason = Reason::named("NoSuchPool");
static NO_SUCH_FLUSH: Reason = Reason::named("NoSuchFlush");
static BAD_COUNT: Reason = Reason::named("BadCount");
static SPENT: Reason = Reason::named("Spent");
static TOO_MANY_FLUSHES: Reason = Reason::named("TooManyFlushes");
static ORDERED: Reason = Reason::named("Ordered");
static ALREADY_FROZEN: Reason = Reason::named("AlreadyFrozen");
static NOT_FROZEN: Reason = Reason::named("NotFrozen");
static NOTHING_TO_DO: Reason = Reason::named("NothingToDo");
static UNSETTLED: Reason = Reason::named("Unsettled");
static DISABLED: Reason = Reason::named("Disabled");
static TOO_DEEP: Reason = Reason::named("TooDeep");
static NOT_DISABLED: Reason = Reason::named("NotDisabled");
static ALREADY_PRESSED: Reason = Reason::named("AlreadyPressed");
static NOT_PRESSED: Reason = Reason::named("NotPressed");

/// The most often that a work can be disabled.
const MAX_DEPTH: u16 = 65_535;

impl Machine<'_> {
    /// Carries out an actor's line.
    pub fn perform(&mut self, line: &scenario::Line) {
        let times = line.times;
        match line.instr {
            Instr::Queue { work, cpu } => self.repeat(times, |it| it.queue_after(work, cpu, 0)),
            Instr::Delay { work, cpu, ticks } => self.repeat(times, |it| it.queue_after(work, cpu, ticks)),
            Instr::Mod { work, cpu, ticks } => self.repeat(times, |it| it.modify(work, cpu, ticks)),
            Instr::Cancel(work) => self.repeat(times, |it| it.cancel(work)),
            Instr::CancelSync(work) => self.repeat(times, |it| it.cancel_sync(work)),
            Instr::Flush(work) => self.repeat(times, |it| it.flush(work)),
            Instr::FlushDelayed(work) => self.repeat(times, |it| it.flush_delayed(work)),
            Instr::FlushQueue(queue) => self.repeat(times, |it| it.flush_queue(queue)),
            Instr::SetMax { queue, max } => self.repeat(times, |it| it.set_max(queue, max)),
            Instr::Freeze => self.repeat(times, |it| it.freeze()),
            Instr::Thaw => self.repeat(times, |it| it.thaw()),
            Instr::Fire => self.repeat(times, |it| it.fire_due()),
            Instr::Step(pool) => self.repeat(times, |it| it.step(pool)),
            Instr::Tick => self.repeat(times, |it| it.tick_settled()),
            Instr::Next => self.repeat(times, |it| it.next()),
            Instr::Ask(flush) => self.repeat(times, |it| it.ask(flush)),
            Instr::Busy => self.repeat(times, |it| it.answer(it.busy > 0)),
            Instr::State(work) => self.repeat(times, |it| it.state(work)),
            Instr::Disable(work) => self.repeat(times, |it| it.disable(work)),
            Instr::Enable(work) => self.repeat(times, |it| it.enable(work)),
            Instr::Pressure => self.repeat(times, |it| it.press(true)),
            Instr::Relief => self.repeat(times, |it| it.press(false)),
            Instr::Until(time) => self.next_until(times, |it| it.time >= u64::from(time)),
            Instr::Wait(flush) => self.wait(times, flush as usize),
            Instr::Quiet => self.next_until(times, |it| it.at_work == 0),
        }
    }

    /// Carries out an instruction so many times, one after another, and writes the line of each refusal.
    #[inline]
    fn repeat(&mut self, times: u32, issue: impl Fn(&mut Self) -> Result<(), Refusal>) {
        for _ in 0..times {
            if let Err(reason) = issue(self) {
                self.refuse(reason);
            }
        }
    }

    /// Writes the line of a refusal.
    #[inline]
    fn refuse(&mut self, Reason { text, len }: Refusal) {
        self.lines.write(self.time, |line| line.text(text).cut(24 - len));
    }

    /// Writes `yes` or `no`.
    #[inline]
    fn answer(&mut self, holds: bool) -> Result<(), Refusal> {
        if holds { self.tell(b"yes\n") } else { self.tell(b"no\n") }
    }

    /// Writes a line of these words.
    #[inline]
    fn tell<const N: usize>(&mut self, words: &[u8; N]) -> Result<(), Refusal> {
        self.lines.write(self.time, |line| line.text(words));
        Ok(())
    }

    #[inline]
    fn judge_cpu(&self, cpu: u8) -> Result<(), Refusal> {
        if cpu < self.scenario.cpus { Ok(()) } else { Err(&NO_SUCH_CPU) }
    }

    /// Refuses where the steps are spent.
    #[inline]
    fn judge_spent(&self) -> Result<(), Refusal> {
        if self.steps_left > 0 { Ok(()) } else { Err(&SPENT) }
    }

    /// Refuses where the steps are spent, or no further flush can be given.
    fn judge_flush(&self) -> Result<(), Refusal> {
        self.judge_spent()?;
        if self.flushes.len() < self.scenario.flushes as usize { Ok(()) } else { Err(&TOO_MANY_FLUSHES) }
    }

    /// Refuses to queue a work on a CPU that isn't there, where the steps are spent, or where the work is disabled.
    #[inline]
    fn judge_queue(&self, work: u8, cpu: u8) -> Result<(), Refusal> {
        self.judge_cpu(cpu)?;
        self.judge_spent()?;
        if self.works[work as usize].depth == 0 { Ok(()) } else { Err(&DISABLED) }
    }

    #[inline]
    fn next(&mut self) -> Result<(), Refusal> {
        self.judge_spent()?;
        self.steps_left -= 1;
        self.go_on();
        Ok(())
    }

    /// Carries out `next` so many times, one after another, until there is what it goes on for: that stays.
    fn next_until(&mut self, times: u32, is_met: impl Fn(&mut Self) -> bool) {
        for _ in 0..times {
            if is_met(self) {
                return;
            }
            if let Err(reason) = self.next() {
                self.refuse(reason);
            }
        }
    }

    /// Carries out `next` so many times, one after another, until the flush is done.
    fn wait(&mut self, times: u32, flush: usize) {
        if flush < self.flushes.len() {
            self.next_until(times, |it| it.is_done(flush));
        } else {
            self.repeat(times, |_| Err(&NO_SUCH_FLUSH));
        }
    }

    #[inline]
    fn queue_after(&mut self, work: u8, cpu: u8, ticks: u32) -> Result<(), Refusal> {
        self.judge_queue(work, cpu)?;
        self.steps_left -= 1;
        if self.works[work as usize].pends() {
            return self.tell(b"already\n");
        }
        self.place_after(work, cpu, ticks);
        Ok(())
    }

    #[inline]
    fn modify(&mut self, number: u8, cpu: u8, ticks: u32) -> Result<(), Refusal> {
        self.judge_queue(number, cpu)?;
        self.steps_left -= 1;
        if self.place_anew(number, cpu, ticks) { self.tell(b"changed\n") } else { Ok(()) }
    }

    fn cancel(&mut self, work: u8) -> Result<(), Refusal> {
        self.judge_spent()?;
        self.steps_left -= 1;
        if self.take_off(work) { self.tell(b"cancelled\n") } else { self.tell(b"not pending\n") }
    }

    fn cancel_sync(&mut self, work: u8) -> Result<(), Refusal> {
        self.judge_flush()?;
        self.steps_left -= 1;
        let was_pending = self.take_off(work);
        let target = self.running_instance(work);
        let number = self.give_flush(target);
        self.lines.write(self.time, |line| {
            let line = if was_pending { line.text(b"cancelled flush ") } else { line.text(b"not pending flush ") };
            line.number(number).text(b"\n")
        });
        Ok(())
    }

    /// The running instance of a work, or nothing.
    fn running_instance(&self, number: u8) -> Flush {
        let work = &self.works[number as usize];
        if work.runs() { Flush::Instance { work: number, born: work.running_born } } else { Flush::Nothing }
    }

    /// Gives a flush, and its number.
    fn give_flush(&mut self, target: Flush) -> u64 {
        self.flushes.push(target);
        self.flushes.len() as u64 - 1
    }

    /// Gives a flush, and writes its number.
    fn tell_flush(&mut self, target: Flush) -> Result<(), Refusal> {
        let number = self.give_flush(target);
        self.lines.write(self.time, |line| line.text(b"flush ").number(number).text(b"\n"));
        Ok(())
    }

    /// Gives a flush on the placed instance of a work, else on the running one, else on nothing.
    fn flush_last(&mut self, number: u8) -> Result<(), Refusal> {
        let work = &self.works[number as usize];
        if work.is_placed() {
            self.tell_flush(Flush::Instance { work: number, born: work.pending_born })
        } else {
            self.tell_flush(self.running_instance(number))
        }
    }

    fn flush(&mut self, work: u8) -> Result<(), Refusal> {
        self.judge_flush()?;
        self.steps_left -= 1;
        self.flush_last(work)
    }

    fn flush_delayed(&mut self, work: u8) -> Result<(), Refusal> {
        self.judge_flush()?;
        self.steps_left -= 1;
        if let Place::Timer { cpu, .. } = self.works[work as usize].place {
            self.fire(work, cpu);
        }
        self.flush_last(work)
    }

    fn flush_queue(&mut self, queue: u8) -> Result<(), Refusal> {
        self.judge_flush()?;
        self.steps_left -= 1;
        self.tell_flush(Flush::Queue { queue, bound: self.next, done: 0 })
    }

    fn set_max(&mut self, queue: u8, max: u32) -> Result<(), Refusal> {
        if max == 0 || max > 512 {
            return Err(&BAD_COUNT);
        }
        self.judge_spent()?;
        if self.queues[queue as usize].flags.has(Flags::ORDERED) {
            return Err(&ORDERED);
        }
        self.steps_left -= 1;
        self.queues[queue as usize].max = max as u16;
        self.set_limit(queue);
        self.fill_everywhere(queue);
        Ok(())
    }

    fn freeze(&mut self) -> Result<(), Refusal> {
        self.judge_spent()?;
        if self.frozen {
            return Err(&ALREADY_FROZEN);
        }
        self.steps_left -= 1;
        self.frozen = true;
        for queue in 0..self.scenario.queues.len() {
            self.set_limit(queue as u8);
        }
        Ok(())
    }

    fn thaw(&mut self) -> Result<(), Refusal> {
        self.judge_spent()?;
        if !self.frozen {
            return Err(&NOT_FROZEN);
        }
        self.steps_left -= 1;
        self.frozen = false;
        for queue in 0..self.scenario.queues.len() {
            self.set_limit(queue as u8);
            self.fill_everywhere(queue as u8);
        }
        Ok(())
    }

    fn fire_due(&mut self) -> Result<(), Refusal> {
        self.judge_spent()?;
        if self.timers.time() > self.time {
            return Err(&NOTHING_TO_DO);
        }
        self.steps_left -= 1;
        self.fire_first();
        Ok(())
    }

    #[inline]
    fn step(&mut self, pool: u8) -> Result<(), Refusal> {
        if pool >= self.unbound + 2 {
            return Err(&NO_SUCH_POOL);
        }
        self.judge_spent()?;
        let Some(next) = self.next_move(pool) else { return Err(&NOTHING_TO_DO) };
        self.steps_left -= 1;
        self.make(pool, next);
        Ok(())
    }

    #[inline]
    fn tick_settled(&mut self) -> Result<(), Refusal> {
        self.judge_spent()?;
        if self.timers.time() <= self.time || self.first_move().is_some() {
            return Err(&UNSETTLED);
        }
        self.steps_left -= 1;
        self.tick();
        Ok(())
    }

    #[inline]
    fn ask(&mut self, flush: u16) -> Result<(), Refusal> {
        if flush as usize >= self.flushes.len() {
            return Err(&NO_SUCH_FLUSH);
        }
        let is_done = self.is_done(flush as usize);
        self.answer(is_done)
    }

    fn disable(&mut self, number: u8) -> Result<(), Refusal> {
        self.judge_spent()?;
        let work = &mut self.works[number as usize];
        if work.depth == MAX_DEPTH {
            return Err(&TOO_DEEP);
        }
        work.depth += 1;
        self.cancel(number)
    }

    fn enable(&mut self, number: u8) -> Result<(), Refusal> {
        self.judge_spent()?;
        let work = &mut self.works[number as usize];
        if work.depth == 0 {
            return Err(&NOT_DISABLED);
        }
        work.depth -= 1;
        let is_enabled = work.depth == 0;
        self.steps_left -= 1;
        self.answer(is_enabled)
    }

    /// Memory is short from now on, or no longer.
    fn press(&mut self, pressed: bool) -> Result<(), Refusal> {
        self.judge_spent()?;
        if self.pressed == pressed {
            return Err(if pressed { &ALREADY_PRESSED } else { &NOT_PRESSED });
        }
        self.steps_left -= 1;
        self.pressed = pressed;
        self.mark_all();
        Ok(())
    }

    /// Writes where a work is.
    #[inline]
    fn state(&mut self, number: u8) -> Result<(), Refusal> {
        let work = &self.works[number as usize];
        self.lines.write(self.time, |line| {
            let line = put_place(line.name(number), work.place);
            match work.run {
                Run::Still => line.text(b" still\n"),
                Run::Asleep { until } => put_worker(line.text(b" asleep "), work.pool, work.worker).text(b" ").number(until).text(b"\n"),
                _ => put_worker(line.text(b" runs "), work.pool, work.worker).text(b"\n"),
            }
        });
        Ok(())
    }
}

/// What a line says of where a work waits.
#[inline]
fn put_place(line: Line, place: Place) -> Line {
    match place {
        Place::Idle => line.text(b"idle"),
        Place::Timer { due, .. } => line.text(b"timer ").number(due),
        Place::Inactive(pool) => line.text(b"inactive ").number(pool.into()),
        Place::Listed(pool) => line.text(b"listed ").number(pool.into()),
        Place::Deferred(pool) => line.text(b"deferred ").number(pool.into()),
    }
}

/// A pool, and a worker of it or a rescuer.
#[inline]
fn put_worker(line: Line, pool: u8, worker: u8) -> Line {
    let line = line.number(pool.into()).text(b"/");
    if worker == RESCUER { line.text(b"rescuer") } else { line.number(worker.into()) }
}

