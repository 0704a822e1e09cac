//! The numbers of the table "Replies" other than 0, and where a walk stops with one.

#[derive(Clone, Copy, PartialEq, Eq, Debug)]
#[repr(u32)]
pub enum Refusal {
    ImageLength = 1,
    NoSignature = 2,
    NotRead = 3,
    BadSuperblock = 4,
    BlockOutside = 5,
    BlocksMeet = 6,
    WrongSignature = 7,
    BadTree = 8,
    BadHeapOrName = 9,
    BadHeader = 10,
    BadDataset = 11,
    TooManyObjects = 12,
    NoRoom = 13,
    BadPath = 14,
    NameAbsent = 15,
    SymbolicLink = 16,
    NoGroup = 17,
    LogTooShort = 18,
    LogDoesNotFit = 19,
    NoDataset = 20,
}

impl Refusal {
    pub fn number(self) -> u32 {
        self as u32
    }
}

/// What a reader of a part of the image gives. Its answer has no place: who hands over the part knows that.
pub type Read<T> = Result<T, Refusal>;

/// `Ok` exactly if `sound` holds.
pub fn ask(sound: bool, refusal: Refusal) -> Read<()> {
    if sound {
        Ok(())
    } else {
        Err(refusal)
    }
}

/// Where a fault is met: the block that is being read, by its address, and the place in the image of what is wrong in it.
#[derive(Clone, Copy, PartialEq, Eq, Debug)]
pub struct Site {
    pub block: u64,
    pub place: u64,
}

impl Site {
    /// What is wrong with a block as a whole is met at its first byte.
    pub fn block(address: u64) -> Site {
        Site {
            block: address,
            place: address,
        }
    }

    /// What is wrong at so many bytes from the start of a block.
    pub fn inside(block: u64, offset: usize) -> Site {
        Site {
            block,
            place: block + offset as u64,
        }
    }
}

/// The site of an answer that is about no byte of the image: to a path, or to what was lent.
pub const NOWHERE: Site = Site { block: 0, place: 0 };

/// Why a walk stops.
#[derive(Clone, Copy, PartialEq, Eq, Debug)]
pub enum Stop {
    /// The answer to a fault, and where in the image it was met.
    Fault(Refusal, Site),
    /// 5, 6 and 13: the block that can't be entered, the object whose walk wants it, and with 6 the address of the first block
    /// entered that it meets.
    NotEntered {
        refusal: Refusal,
        part: Part,
        address: u64,
        length: u64,
        owner: u64,
        met: u64,
    },
}

impl Stop {
    pub fn number(self) -> u32 {
        match self {
            Stop::Fault(refusal, _) | Stop::NotEntered { refusal, .. } => refusal.number(),
        }
    }

    /// "Answer 6 now also returns the address of the first block entered that it meets"; with any other it is 0.
    pub fn met(self) -> u64 {
        match self {
            Stop::NotEntered { met, .. } => met,
            Stop::Fault(..) => 0,
        }
    }

    /// The place of the fault, or the address of the block that can't be entered.
    pub fn place(self) -> u64 {
        match self {
            Stop::Fault(_, site) => site.place,
            Stop::NotEntered { address, .. } => address,
        }
    }
}

/// What a block is: "kind (1 to 8: superblock, header, continuation, heap, segment, tree, symbol node, data)".
#[derive(Clone, Copy, PartialEq, Eq, Debug)]
pub enum Part {
    Superblock = 1,
    Header = 2,
    Continuation = 3,
    Heap = 4,
    Segment = 5,
    Tree = 6,
    SymbolNode = 7,
    Data = 8,
}

/// What a step of a walk gives.
pub type Walked<T> = Result<T, Stop>;

/// A part's answer becomes a fault where the part stands.
pub trait Located<T> {
    fn at(self, site: Site) -> Walked<T>;
}

impl<T> Located<T> for Read<T> {
    fn at(self, site: Site) -> Walked<T> {
        self.map_err(|refusal| Stop::Fault(refusal, site))
    }
}
