//! What the owner of a host sees of a tenant.

use crate::library::unexpected;
use crate::{AsProgram, Error, Fd, MapShape, MapType, Tenant};
use bpfhost_sys::{ARRAY, ERR_NO_MEMORY, FIRST_DESCRIPTOR, MOST_DESCRIPTORS};

/// How much a tenant has at a moment.
#[derive(Debug, Clone, Copy, Default, PartialEq, Eq)]
#[non_exhaustive]
pub struct Counts {
    /// Live maps: those that an open descriptor or a loaded program names.
    pub maps: u32,
    /// The keys of all of them. An array has all its indices.
    pub entries: u32,
    /// The bytes that their values take, each rounded up to a multiple of eight.
    pub value_bytes: u32,
    /// Open descriptors that name a program.
    pub programs: u32,
    /// Open descriptors.
    pub descriptors: u32,
    /// Whether memory was ever refused to a load or a new map.
    pub memory_refused: bool,
}

/// What an open descriptor names.
#[derive(Debug, Clone, Copy, PartialEq, Eq)]
#[non_exhaustive]
pub enum Opened {
    /// A map.
    Map {
        /// What it is made of.
        shape: MapShape,
        /// The keys that it has. An array has all its indices.
        entries: u32,
    },
    /// A program.
    Program {
        /// Its slots of eight bytes.
        slots: u32,
        /// What it costs.
        cost: Cost,
    },
}

/// The form of a log of the verifier.
#[derive(Debug, Clone, Copy, PartialEq, Eq)]
#[repr(u32)]
pub enum LogStyle {
    /// A line for each instruction, with what is new before it.
    New = 0,
    /// A line for each instruction, with all that is known before it.
    Whole = 1,
    /// A graph for Graphviz.
    Graph = 2,
}

/// A log of the verifier.
#[derive(Debug, Clone, PartialEq, Eq)]
pub struct Log {
    /// The text of `verifier_log`.
    pub text: String,
    /// The verdict.
    pub is_accepted: bool,
}

/// The most instructions, and the most calls of helpers, on a path through a program, which may be two paths. No run executes more.
#[derive(Debug, Clone, Copy, PartialEq, Eq)]
pub struct Cost {
    /// 1 to 4,096 instructions.
    pub instructions: u32,
    /// 0 to 4,095 calls.
    pub calls: u32,
}

impl Log {
    /// What the program costs; `None` if it is rejected, or if the log is a graph or of a version that does not write it.
    ///
    /// ```
    /// # use bpfhost::{Cost, Log};
    /// let text = "0: r0 = 1\n1: exit\ncost: instructions 2, calls 0\naccepted\n".to_string();
    /// assert_eq!(Log { text, is_accepted: true }.cost(), Some(Cost { instructions: 2, calls: 0 }));
    /// ```
    pub fn cost(&self) -> Option<Cost> {
        let line = self.text.lines().find_map(|line| line.strip_prefix("cost: instructions "))?;
        let (instructions, calls) = line.split_once(", calls ")?;
        let cost = Cost { instructions: instructions.parse().ok()?, calls: calls.parse().ok()? };
        self.is_accepted.then_some(cost)
    }
}

impl Tenant<'_> {
    /// How much this tenant has; all is 0 if it is not served.
    pub fn status(&mut self) -> Counts {
        let number = self.number();
        let found = self.host().counts(number);
        Counts {
            maps: found.maps,
            entries: found.entries,
            value_bytes: found.value_bytes,
            programs: found.programs,
            descriptors: found.descriptors,
            memory_refused: found.memory_refused,
        }
    }

    /// What a descriptor of this tenant names; `None` if it is not open.
    pub fn describe(&mut self, fd: Fd) -> Option<Opened> {
        let number = self.number();
        let found = self.host().describe(number, fd.0);
        let map_type = if found.map_type == ARRAY { MapType::Array } else { MapType::Hash };
        let shape = MapShape {
            map_type,
            key_size: found.key_size,
            value_size: found.value_size,
            max_entries: found.max_entries,
        };
        match found.kind {
            1 => Some(Opened::Map { shape, entries: found.entries }),
            2 => self.program_cost(fd).map(|cost| Opened::Program { slots: found.slots, cost }),
            _ => None,
        }
    }

    /// What the program that a descriptor of this tenant names costs; `None` if it names none.
    pub fn program_cost(&mut self, fd: Fd) -> Option<Cost> {
        let number = self.number();
        let found = self.host().program_cost(number, fd.0);
        // Every program has an instruction.
        (found.instructions > 0).then_some(Cost { instructions: found.instructions, calls: found.calls })
    }

    /// The open descriptors, in their order, with what they name.
    ///
    /// ```
    /// # use bpfhost::{Error, Fd, Host, MapShape, MapType, Opened};
    /// # let mut host = Host::new(1)?;
    /// # let mut tenant = host.tenant(0);
    /// let shape = MapShape { map_type: MapType::Hash, key_size: 4, value_size: 8, max_entries: 16 };
    /// tenant.map_create(shape)?;
    /// assert_eq!(tenant.list(), [(Fd(3), Opened::Map { shape, entries: 0 })]);
    /// assert_eq!(tenant.status().value_bytes, 16 * 8);
    /// # Ok::<(), Error>(())
    /// ```
    pub fn list(&mut self) -> Vec<(Fd, Opened)> {
        let descriptors = (FIRST_DESCRIPTOR as u32..).take(MOST_DESCRIPTORS).map(Fd);
        descriptors.filter_map(|fd| self.describe(fd).map(|opened| (fd, opened))).collect()
    }

    /// Verifies a program with the descriptors of this tenant, as a load does, and loads nothing. If the slots are no program, the text is the line of
    /// their refusal.
    ///
    /// # Errors
    ///
    /// [`Error::NoMemory`].
    pub fn verify(&mut self, program: &(impl AsProgram + ?Sized), style: LogStyle) -> Result<Log, Error> {
        let (number, slots) = (self.number(), program.as_program());
        let mut text = vec![0; 4096];
        loop {
            let logged = self.host().verify(number, slots, style as u32, &mut text).map_err(|code| match code {
                ERR_NO_MEMORY => Error::NoMemory,
                code => panic!("{}", unexpected(code)),
            })?;
            if logged.length < text.len() {
                text.truncate(logged.length);
                let text = String::from_utf8(text).expect("a log is text");
                return Ok(Log { text, is_accepted: logged.is_accepted });
            }
            // With the zero byte after it.
            text.resize(logged.length + 1, 0);
        }
    }
}
