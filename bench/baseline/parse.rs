//! What a scenario's text spells.
use crate::names::Names;
use crate::scenario::{ACTORS, Actor, Flags, Instr, Line, Name, Op, QUEUES, Queue, Scenario, WORKERS, WORKS, Work};
use crate::words::{PADDING, Word, Words};

/// The most bytes of a text.
const TEXT: usize = 4_194_304;

/// The most operations of a body.
const OPS: usize = 64;

/// The most lines of an actor.
const LINES: usize = 4096;

/// The most ticks of an operation.
const TICKS: u32 = 1_000_000;

/// The flags by their words.
const FLAGS: [(Word, Flags); 6] = [
    (Word::of("highpri"), Flags::HIGHPRI),
    (Word::of("unbound"), Flags::UNBOUND),
    (Word::of("cpu_intensive"), Flags::CPU_INTENSIVE),
    (Word::of("freezable"), Flags::FREEZABLE),
    (Word::of("ordered"), Flags::ORDERED),
    (Word::of("mem_reclaim"), Flags::MEM_RECLAIM),
];

/// The words with which lines begin.
mod first {
    use crate::words::Word;

    pub const CPUS: Word = Word::of("cpus");
    pub const WORKERS: Word = Word::of("workers");
    pub const STEPS: Word = Word::of("steps");
    pub const FLUSHES: Word = Word::of("flushes");
    pub const QUEUE: Word = Word::of("queue");
    pub const WORK: Word = Word::of("work");
    pub const BODY: Word = Word::of("body");
    pub const BURN: Word = Word::of("burn");
    pub const SLEEP: Word = Word::of("sleep");
    pub const FINISH: Word = Word::of("finish");
    pub const ACTOR: Word = Word::of("actor");
    pub const DELAY: Word = Word::of("delay");
    pub const MOD: Word = Word::of("mod");
    pub const CANCEL: Word = Word::of("cancel");
    pub const CANCEL_SYNC: Word = Word::of("cancel_sync");
    pub const FLUSH: Word = Word::of("flush");
    pub const FLUSH_DELAYED: Word = Word::of("flush_delayed");
    pub const FLUSH_QUEUE: Word = Word::of("flush_queue");
    pub const SET_MAX: Word = Word::of("set_max");
    pub const FREEZE: Word = Word::of("freeze");
    pub const THAW: Word = Word::of("thaw");
    pub const FIRE: Word = Word::of("fire");
    pub const STEP: Word = Word::of("step");
    pub const TICK: Word = Word::of("tick");
    pub const NEXT: Word = Word::of("next");
    pub const ASK: Word = Word::of("ask");
    pub const BUSY: Word = Word::of("busy");
    pub const STATE: Word = Word::of("state");
    pub const DISABLE: Word = Word::of("disable");
    pub const ENABLE: Word = Word::of("enable");
    pub const PRESSURE: Word = Word::of("pressure");
    pub const RELIEF: Word = Word::of("relief");
    pub const UNTIL: Word = Word::of("until");
    pub const WAIT: Word = Word::of("wait");
    pub const QUIET: Word = Word::of("quiet");
}

const MAX: Word = Word::of("max");
const TIMES: Word = Word::of("*");

/// What is wrong with a text.
#[derive(Clone, Copy, Debug)]
pub enum Why {
    TooLong,
    NoUtf8,
    /// The line can't stand there, or none can that begins so.
    BadLine,
    MissingWord,
    BadName,
    BadNumber,
    BadFlag,
    OutOfRange,
    Duplicate,
    Unknown,
    ExtraWord,
    TooMany,
}

/// The scenario that a text spells, or what is wrong with the text, and in which line, from 1; line 0 is the text as a whole.
pub fn parse(mut text: Vec<u8>) -> Result<Scenario, (usize, Why)> {
    if text.len() > TEXT {
        return Err((0, Why::TooLong));
    }
    if let Err(error) = std::str::from_utf8(&text) {
        let line = 1 + text[..error.valid_up_to()].iter().filter(|&&byte| byte == b'\n').count();
        return Err((line, Why::NoUtf8));
    }
    text.extend_from_slice(&[b'\n'; PADDING]);
    let mut parser = Parser::new(&text);
    match parser.read() {
        Ok(()) => Ok(parser.scenario),
        Err(why) => Err((parser.words.line(), why)),
    }
}

/// What was read so far.
struct Parser<'t> {
    words: Words<'t>,
    queue_names: Names,
    work_names: Names,
    scenario: Scenario,
}

impl<'t> Parser<'t> {
    fn new(text: &'t [u8]) -> Parser<'t> {
        let scenario = Scenario {
            cpus: 0,
            workers: 0,
            steps: 0,
            flushes: 0,
            queues: Vec::new(),
            works: Vec::new(),
            ops: Vec::new(),
            actors: Vec::new(),
        };
        Parser { words: Words::new(text), queue_names: Names::new(), work_names: Names::new(), scenario }
    }

    fn read(&mut self) -> Result<(), Why> {
        self.scenario.cpus = self.head(first::CPUS, 1, 16)? as u8;
        self.scenario.workers = self.head(first::WORKERS, 1, WORKERS as u32)? as u8;
        self.scenario.steps = self.head(first::STEPS, 1, u32::MAX)?;
        self.scenario.flushes = self.head(first::FLUSHES, 0, 1024)? as u16;
        let mut word = self.words.begin();
        while word == first::QUEUE {
            self.queue()?;
            word = self.words.begin();
        }
        while word == first::WORK {
            self.work()?;
            word = self.words.begin();
        }
        for work in 0..self.scenario.works.len() {
            self.body(work, word)?;
            word = self.words.begin();
        }
        self.actors(word)
    }

    /// A line of the head: its word, and a number from `least` to `most`.
    fn head(&mut self, first: Word, least: u32, most: u32) -> Result<u32, Why> {
        if self.words.begin() != first {
            return Err(Why::BadLine);
        }
        let number = self.number(least, most)?;
        self.end()?;
        Ok(number)
    }

    /// Goes to the next line, if this one has no further word.
    #[inline]
    fn end(&mut self) -> Result<(), Why> {
        if self.words.end() { Ok(()) } else { Err(Why::ExtraWord) }
    }

    #[inline]
    fn number(&mut self, least: u32, most: u32) -> Result<u32, Why> {
        match self.words.word().number() {
            Some(number) if u64::from(least) <= number && number <= u64::from(most) => Ok(number as u32),
            Some(_) => Err(Why::OutOfRange),
            None => Err(Why::BadNumber),
        }
    }

    #[inline]
    fn byte(&mut self) -> Result<u8, Why> {
        Ok(self.number(0, 255)? as u8)
    }

    fn new_name(&mut self) -> Result<Word, Why> {
        match self.words.word() {
            Word::NONE => Err(Why::MissingWord),
            name if name.is_name() => Ok(name),
            _ => Err(Why::BadName),
        }
    }

    /// The number of a declared work.
    #[inline]
    fn declared_work(&mut self) -> Result<u8, Why> {
        let name = self.words.word();
        match self.work_names.find(name) {
            Some(number) => Ok(number as u8),
            None => Err(Why::Unknown),
        }
    }

    /// The number of a declared queue.
    #[inline]
    fn declared_queue(&mut self) -> Result<u8, Why> {
        let name = self.words.word();
        match self.queue_names.find(name) {
            Some(number) => Ok(number as u8),
            None => Err(Why::Unknown),
        }
    }

    /// What stands behind the word `queue` of a declaration.
    fn queue(&mut self) -> Result<(), Why> {
        let name = self.new_name()?;
        if !self.queue_names.add(name, self.scenario.queues.len()) {
            return Err(Why::Duplicate);
        }
        if self.words.word() != MAX {
            return Err(Why::MissingWord);
        }
        let max = self.number(1, 512)? as u16;
        let flags = self.flags()?;
        self.end()?;
        if flags.has(Flags::ORDERED) && max != 1 {
            return Err(Why::OutOfRange);
        }
        if self.scenario.queues.len() == QUEUES {
            return Err(Why::TooMany);
        }
        self.scenario.queues.push(Queue { name: Name(name.0), max, flags });
        Ok(())
    }

    fn flags(&mut self) -> Result<Flags, Why> {
        let mut flags = Flags::default();
        loop {
            let word = self.words.word();
            if word == Word::NONE {
                return Ok(flags);
            }
            match FLAGS.iter().find(|(it, _)| *it == word) {
                Some((_, flag)) if !flags.has(*flag) => flags = flags.with(*flag),
                Some(_) => return Err(Why::Duplicate),
                None => return Err(Why::BadFlag),
            }
        }
    }

    /// What stands behind the word `work`.
    fn work(&mut self) -> Result<(), Why> {
        if self.scenario.works.len() == WORKS {
            return Err(Why::TooMany);
        }
        let name = self.new_name()?;
        if !self.work_names.add(name, self.scenario.works.len()) {
            return Err(Why::Duplicate);
        }
        let queue = self.declared_queue()?;
        self.end()?;
        self.scenario.works.push(Work { name: Name(name.0), queue, body: 0 });
        Ok(())
    }

    /// The body of this work, of which the first word was read.
    fn body(&mut self, work: usize, word: Word) -> Result<(), Why> {
        if word != first::BODY || self.words.word().0 != self.scenario.works[work].name.0 {
            return Err(Why::BadLine);
        }
        self.end()?;
        let start = self.scenario.ops.len();
        self.scenario.works[work].body = start as u32;
        loop {
            let op = self.op()?;
            self.end()?;
            self.scenario.ops.push(op);
            if let Op::Finish = op {
                return Ok(());
            }
            if self.scenario.ops.len() - start == OPS {
                return Err(Why::TooMany);
            }
        }
    }

    fn op(&mut self) -> Result<Op, Why> {
        match self.words.begin() {
            first::BURN => Ok(Op::Burn(self.number(1, TICKS)?)),
            first::SLEEP => Ok(Op::Sleep(self.number(1, TICKS)?)),
            first::QUEUE => {
                let work = self.declared_work()?;
                let cpu = self.number(0, u32::from(self.scenario.cpus) - 1)? as u8;
                Ok(Op::Queue { work, cpu })
            }
            first::FINISH => Ok(Op::Finish),
            word => self.rare_op(word),
        }
    }

    /// The operation that begins with this word, of those of which bodies have few.
    #[inline(never)]
    fn rare_op(&mut self, word: Word) -> Result<Op, Why> {
        match word {
            first::DELAY => Ok(Op::Delay { work: self.declared_work()?, ticks: self.number(0, TICKS)? }),
            first::MOD => Ok(Op::Mod { work: self.declared_work()?, ticks: self.number(0, TICKS)? }),
            first::CANCEL => Ok(Op::Cancel(self.declared_work()?)),
            _ => Err(Why::BadLine),
        }
    }

    /// The actors, of which the first word was read.
    fn actors(&mut self, mut word: Word) -> Result<(), Why> {
        let mut names = Names::new();
        while word != Word::NONE {
            if word != first::ACTOR {
                return Err(Why::BadLine);
            }
            let name = self.new_name()?;
            if !names.add(name, self.scenario.actors.len()) {
                return Err(Why::Duplicate);
            }
            self.end()?;
            if self.scenario.actors.len() == ACTORS {
                return Err(Why::TooMany);
            }
            let mut lines = Vec::new();
            word = self.lines(&mut lines)?;
            self.scenario.actors.push(Actor { name: Name(name.0), lines });
        }
        Ok(())
    }

    /// The lines of an actor. Gives the first word of what follows.
    fn lines(&mut self, lines: &mut Vec<Line>) -> Result<Word, Why> {
        loop {
            let word = self.words.begin();
            if word == first::ACTOR || word == Word::NONE {
                return Ok(word);
            }
            let instr = self.instr(word)?;
            let times = self.times()?;
            if lines.len() == LINES {
                return Err(Why::TooMany);
            }
            lines.push(Line { instr, times });
        }
    }

    /// How often a line stands; goes to the next line.
    #[inline]
    fn times(&mut self) -> Result<u32, Why> {
        let times = match self.words.word() {
            Word::NONE => 1,
            TIMES => self.number(1, 65_535)?,
            _ => return Err(Why::ExtraWord),
        };
        self.end()?;
        Ok(times)
    }

    /// The instruction that begins with this word.
    #[inline]
    fn instr(&mut self, word: Word) -> Result<Instr, Why> {
        Ok(match word {
            first::QUEUE => Instr::Queue { work: self.declared_work()?, cpu: self.byte()? },
            first::DELAY => Instr::Delay { work: self.declared_work()?, cpu: self.byte()?, ticks: self.number(0, u32::MAX)? },
            first::MOD => Instr::Mod { work: self.declared_work()?, cpu: self.byte()?, ticks: self.number(0, u32::MAX)? },
            first::CANCEL => Instr::Cancel(self.declared_work()?),
            first::CANCEL_SYNC => Instr::CancelSync(self.declared_work()?),
            first::FLUSH => Instr::Flush(self.declared_work()?),
            first::FLUSH_DELAYED => Instr::FlushDelayed(self.declared_work()?),
            first::FLUSH_QUEUE => Instr::FlushQueue(self.declared_queue()?),
            first::SET_MAX => Instr::SetMax { queue: self.declared_queue()?, max: self.number(0, u32::MAX)? },
            first::FREEZE => Instr::Freeze,
            first::THAW => Instr::Thaw,
            first::FIRE => Instr::Fire,
            first::STEP => Instr::Step(self.byte()?),
            first::TICK => Instr::Tick,
            first::NEXT => Instr::Next,
            first::ASK => Instr::Ask(self.number(0, 65_535)? as u16),
            first::BUSY => Instr::Busy,
            first::STATE => Instr::State(self.declared_work()?),
            first::DISABLE => Instr::Disable(self.declared_work()?),
            first::ENABLE => Instr::Enable(self.declared_work()?),
            first::PRESSURE => Instr::Pressure,
            first::RELIEF => Instr::Relief,
            _ => return self.rare_instr(word),
        })
    }

    /// The instruction that begins with this word, of those of which actors have few.
    #[inline(never)]
    fn rare_instr(&mut self, word: Word) -> Result<Instr, Why> {
        match word {
            first::UNTIL => Ok(Instr::Until(self.number(0, u32::MAX)?)),
            first::WAIT => Ok(Instr::Wait(self.number(0, 65_535)? as u16)),
            first::QUIET => Ok(Instr::Quiet),
            _ => Err(Why::BadLine),
        }
    }
}
