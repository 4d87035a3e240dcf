//! The library for a Rust host: the exported calls, and a safe function over each. What a call does and answers stands in `ts11.h`.
//!
//! The rules that a C host must keep about its buffers, that they are as long as it says and do not overlap, hold here by the types.

/// A refusal's number, 1 to 9 or 11.
pub type Refusal = usize;

/// The unit's state: bytes that may be copied, compared and stored. Two states are the same exactly when their bytes are.
#[repr(C)]
#[derive(Clone, Copy, PartialEq, Eq, Debug)]
pub struct State(pub [u8; 128]);

/// The buffers of a unit, which every step is handed. The table has eight bytes for each object on the reel, or more.
pub struct Buffers<'a> {
    pub memory: &'a mut [u8],
    pub reel: &'a mut [u8],
    pub table: &'a mut [u8],
    pub journal: &'a mut [u8],
}

/// A place of the table: an object's first block, and the marks before it.
#[derive(Clone, Copy, PartialEq, Eq, Debug)]
pub struct Place {
    pub block: u32,
    pub marks: u32,
}

/// How an advance went: whether a step was taken at all, and whether the unit interrupts.
#[derive(Clone, Copy, PartialEq, Eq, Debug)]
pub struct Advanced {
    pub stepped: bool,
    pub interrupt: bool,
}

/// What is wrong with a block, in the order in which it is looked at. A sound block that is out of place has the fault `Index`.
#[derive(Clone, Copy, PartialEq, Eq, Debug)]
pub enum Fault {
    Kind,
    Length,
    Index,
    Padding,
    Check,
}

impl Fault {
    /// By its letter; the library gives one of the five with refusal 7, and 0 with every other answer.
    fn by(letter: u8) -> Option<Fault> {
        match letter {
            b'K' => Some(Fault::Kind),
            b'N' => Some(Fault::Length),
            b'I' => Some(Fault::Index),
            b'P' => Some(Fault::Padding),
            b'C' => Some(Fault::Check),
            _ => None,
        }
    }
}

/// A block at fault.
#[derive(Clone, Copy, PartialEq, Eq, Debug)]
pub struct BadBlock {
    pub number: usize,
    pub fault: Fault,
}

/// A refusal of a mount or an advance, and with 7 the block at fault.
#[derive(Clone, Copy, PartialEq, Eq, Debug)]
pub struct Refused {
    pub number: Refusal,
    pub block: Option<BadBlock>,
}

#[derive(Clone, Copy, PartialEq, Eq, Debug)]
pub enum Switch {
    Online,
    WriteLock,
}

#[derive(Clone, Copy, PartialEq, Eq, Debug)]
pub enum Register {
    Tsba,
    Tssr,
}

pub mod exported {
    use super::State;

    #[link(name = "ts11", kind = "static")]
    extern "C" {
        pub fn ts11_mount(
            state: *mut State,
            memory_length: usize,
            reel: *const u8,
            reel_length: usize,
            table: *mut u8,
            table_length: usize,
            journal_length: usize,
            recorded_end: usize,
            online: bool,
            write_lock: bool,
            block: *mut usize,
            fault: *mut u8,
        ) -> usize;
        pub fn ts11_write_tsdb(
            state: *mut State,
            memory: *mut u8,
            memory_length: usize,
            reel: *mut u8,
            reel_length: usize,
            table: *const u8,
            table_length: usize,
            journal: *mut u8,
            journal_length: usize,
            word: u16,
        ) -> usize;
        pub fn ts11_write_tssr(
            state: *mut State,
            memory: *mut u8,
            memory_length: usize,
            reel: *mut u8,
            reel_length: usize,
            table: *const u8,
            table_length: usize,
            journal: *mut u8,
            journal_length: usize,
            word: u16,
        ) -> usize;
        pub fn ts11_operate(
            state: *mut State,
            memory: *mut u8,
            memory_length: usize,
            reel: *mut u8,
            reel_length: usize,
            table: *const u8,
            table_length: usize,
            journal: *mut u8,
            journal_length: usize,
            which_switch: bool,
            on: bool,
        ) -> usize;
        pub fn ts11_read_register(state: *const State, which_register: bool, word: *mut u16) -> usize;
        pub fn ts11_host_store(
            state: *mut State,
            memory: *mut u8,
            memory_length: usize,
            reel: *const u8,
            reel_length: usize,
            table: *const u8,
            table_length: usize,
            journal: *mut u8,
            journal_length: usize,
            address: usize,
            bytes: *const u8,
            length: usize,
        ) -> usize;
        pub fn ts11_advance(
            state: *mut State,
            memory: *mut u8,
            memory_length: usize,
            reel: *mut u8,
            reel_length: usize,
            table: *mut u8,
            table_length: usize,
            journal: *mut u8,
            journal_length: usize,
            stepped: *mut bool,
            interrupt: *mut bool,
            block: *mut usize,
            fault: *mut u8,
        ) -> usize;
        pub fn ts11_step_back(
            state: *mut State,
            memory: *mut u8,
            memory_length: usize,
            reel: *mut u8,
            reel_length: usize,
            table: *mut u8,
            table_length: usize,
            journal: *const u8,
            journal_length: usize,
        ) -> usize;
        pub fn ts11_find_file(
            state: *const State,
            table: *const u8,
            table_length: usize,
            file: usize,
            found: *mut bool,
            place: *mut usize,
        ) -> usize;
        pub fn ts11_find_block(
            state: *const State,
            table: *const u8,
            table_length: usize,
            block: usize,
            found: *mut bool,
            place: *mut usize,
        ) -> usize;
    }
}

fn answered(number: usize) -> Result<(), Refusal> {
    if number == 0 {
        Ok(())
    } else {
        Err(number)
    }
}

/// The same of a call that may be refused with 7.
fn answered_with(number: usize, block: usize, letter: u8) -> Result<(), Refused> {
    let block = Fault::by(letter).map(|fault| BadBlock { number: block, fault });
    answered(number).map_err(|number| Refused { number, block })
}

/// A step on the state and all four buffers, with its further arguments.
macro_rules! step {
    ($call:ident, $state:expr, $b:expr $(, $more:expr)*) => {
        unsafe {
            exported::$call(
                $state,
                $b.memory.as_mut_ptr(),
                $b.memory.len(),
                $b.reel.as_mut_ptr(),
                $b.reel.len(),
                $b.table.as_mut_ptr(),
                $b.table.len(),
                $b.journal.as_mut_ptr(),
                $b.journal.len()
                $(, $more)*
            )
        }
    };
}

/// A look-up by the state in a table: the place that it finds, if any.
macro_rules! found {
    ($call:ident, $state:expr, $table:expr, $sought:expr) => {{
        let (mut found, mut place) = (false, 0);
        let number =
            unsafe { exported::$call($state, $table.as_ptr(), $table.len(), $sought, &mut found, &mut place) };
        answered(number).map(|()| found.then_some(place))
    }};
}

impl Place {
    /// The nth place of a table, if the table has so many.
    pub fn nth(table: &[u8], nth: usize) -> Option<Place> {
        let b = table.chunks_exact(8).nth(nth)?;
        let number = |at: usize| u32::from_le_bytes([b[at], b[at + 1], b[at + 2], b[at + 3]]);
        Some(Place { block: number(0), marks: number(4) })
    }
}

impl State {
    /// No unit's state yet: every call but a mount refuses it.
    pub const NONE: State = State([0; 128]);

    /// The number at one of the header's `TS11_AT_..` offsets.
    pub fn number(&self, at: usize) -> u32 {
        u32::from_le_bytes([self.0[at], self.0[at + 1], self.0[at + 2], self.0[at + 3]])
    }

    pub fn mount(
        &mut self,
        b: &mut Buffers,
        recorded_end: usize,
        online: bool,
        write_lock: bool,
    ) -> Result<(), Refused> {
        let (mut block, mut fault) = (0, 0);
        let number = unsafe {
            exported::ts11_mount(
                self,
                b.memory.len(),
                b.reel.as_ptr(),
                b.reel.len(),
                b.table.as_mut_ptr(),
                b.table.len(),
                b.journal.len(),
                recorded_end,
                online,
                write_lock,
                &mut block,
                &mut fault,
            )
        };
        answered_with(number, block, fault)
    }

    pub fn write_tsdb(&mut self, b: &mut Buffers, word: u16) -> Result<(), Refusal> {
        answered(step!(ts11_write_tsdb, self, b, word))
    }

    pub fn write_tssr(&mut self, b: &mut Buffers, word: u16) -> Result<(), Refusal> {
        answered(step!(ts11_write_tssr, self, b, word))
    }

    pub fn operate(&mut self, b: &mut Buffers, which: Switch, on: bool) -> Result<(), Refusal> {
        answered(step!(ts11_operate, self, b, which == Switch::WriteLock, on))
    }

    pub fn read_register(&self, which: Register) -> Result<u16, Refusal> {
        let mut word = 0;
        let number = unsafe { exported::ts11_read_register(self, which == Register::Tssr, &mut word) };
        answered(number).map(|()| word)
    }

    pub fn host_store(&mut self, b: &mut Buffers, address: usize, bytes: &[u8]) -> Result<(), Refusal> {
        answered(step!(ts11_host_store, self, b, address, bytes.as_ptr(), bytes.len()))
    }

    pub fn advance(&mut self, b: &mut Buffers) -> Result<Advanced, Refused> {
        let (mut stepped, mut interrupt, mut block, mut fault) = (false, false, 0, 0);
        let number = step!(ts11_advance, self, b, &mut stepped, &mut interrupt, &mut block, &mut fault);
        answered_with(number, block, fault)?;
        Ok(Advanced { stepped, interrupt })
    }

    pub fn step_back(&mut self, b: &mut Buffers) -> Result<(), Refusal> {
        answered(step!(ts11_step_back, self, b))
    }

    /// The place in the table where a file begins, if an object stands there.
    pub fn find_file(&self, table: &[u8], file: usize) -> Result<Option<usize>, Refusal> {
        found!(ts11_find_file, self, table, file)
    }

    /// The place in the table of the object that holds a block, if one does.
    pub fn find_block(&self, table: &[u8], block: usize) -> Result<Option<usize>, Refusal> {
        found!(ts11_find_block, self, table, block)
    }
}
