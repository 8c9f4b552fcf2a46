use std::fmt;

use crate::raw::RawCall;

// tools/words: kinds
/// A collective (MPI 4.1, 6.12).
#[derive(Clone, Copy, Debug, PartialEq, Eq, Hash)]
#[repr(u8)]
pub enum Kind {
    /// `MPI_Ibarrier`
    Barrier,
    /// `MPI_Ibcast`
    Bcast,
    /// `MPI_Igather`
    Gather,
    /// `MPI_Iscatter`
    Scatter,
    /// `MPI_Iallgather`
    Allgather,
    /// `MPI_Ialltoall`
    Alltoall,
    /// `MPI_Ireduce`
    Reduce,
    /// `MPI_Iallreduce`
    Allreduce,
    /// `MPI_Ireduce_scatter_block`
    ReduceScatterBlock,
    /// `MPI_Iscan`
    Scan,
    /// `MPI_Iexscan`
    Exscan,
    /// `MPI_Iallgatherv`, whose members' counts stand beside the call
    Allgatherv,
}

impl Kind {
    /// By their numbers in C, with their words in job texts.
    const ALL: [(Kind, &'static str); 12] = [
        (Kind::Barrier, "barrier"),
        (Kind::Bcast, "bcast"),
        (Kind::Gather, "gather"),
        (Kind::Scatter, "scatter"),
        (Kind::Allgather, "allgather"),
        (Kind::Alltoall, "alltoall"),
        (Kind::Reduce, "reduce"),
        (Kind::Allreduce, "allreduce"),
        (Kind::ReduceScatterBlock, "rsblock"),
        (Kind::Scan, "scan"),
        (Kind::Exscan, "exscan"),
        (Kind::Allgatherv, "allgatherv"),
    ];

    fn has_root(self) -> bool {
        matches!(self, Kind::Bcast | Kind::Gather | Kind::Scatter | Kind::Reduce)
    }
}
// tools/words: end of kinds

// tools/words: operations
/// An operation on a lower member's element a and a higher one's b (MPI 4.1, 6.9.2 and 6.9.4).
#[derive(Clone, Copy, Debug, PartialEq, Eq, Hash)]
#[repr(u8)]
pub enum Op {
    /// `MPI_MAX`: the greater
    Max = 1,
    /// `MPI_MIN`: the lesser
    Min,
    /// `MPI_SUM`: the sum, wrapped to the type's bits
    Sum,
    /// `MPI_PROD`: the product, wrapped to the type's bits
    Prod,
    /// `MPI_LAND`: 1 where both are nonzero, else 0
    Land,
    /// `MPI_LOR`: 1 where at least one is nonzero, else 0
    Lor,
    /// `MPI_LXOR`: 1 where exactly one is nonzero, else 0
    Lxor,
    /// `MPI_BAND`: the bits that both have
    Band,
    /// `MPI_BOR`: the bits that at least one has
    Bor,
    /// `MPI_BXOR`: the bits that exactly one has
    Bxor,
    /// B where b isn't 0, else a; not commutative, as a user's may be
    LastNz,
    /// `MPI_MAXLOC`: the pair with the greater value, of equal values the one with the lesser index
    MaxLoc,
    /// `MPI_MINLOC`: the pair with the lesser value, of equal values the one with the lesser index
    MinLoc,
}

impl Op {
    /// By their numbers in C from 1 on, with their words in job texts.
    const ALL: [(Op, &'static str); 13] = [
        (Op::Max, "max"),
        (Op::Min, "min"),
        (Op::Sum, "sum"),
        (Op::Prod, "prod"),
        (Op::Land, "land"),
        (Op::Lor, "lor"),
        (Op::Lxor, "lxor"),
        (Op::Band, "band"),
        (Op::Bor, "bor"),
        (Op::Bxor, "bxor"),
        (Op::LastNz, "lastnz"),
        (Op::MaxLoc, "maxloc"),
        (Op::MinLoc, "minloc"),
    ];
}
// tools/words: end of operations

impl Op {
    /// The operation that a number names, with its word.
    fn named(number: u8) -> Option<(Op, &'static str)> {
        Op::ALL.get(usize::from(number).checked_sub(1)?).copied()
    }
}

// tools/words: types
/// The type of an element; numbers are little-endian.
#[derive(Clone, Copy, Debug, PartialEq, Eq, Hash)]
#[repr(u8)]
pub enum Type {
    /// `MPI_INT8_T`
    I8,
    /// `MPI_INT16_T`
    I16,
    /// `MPI_INT32_T`
    I32,
    /// `MPI_INT64_T`
    I64,
    /// `MPI_UINT8_T`
    U8,
    /// `MPI_UINT16_T`
    U16,
    /// `MPI_UINT32_T`
    U32,
    /// `MPI_UINT64_T`
    U64,
    /// `MPI_BYTE`: for the operations on bits alone
    Byte,
    /// `MPI_2INT`: a value and its index, each an int32_t; for maxloc and minloc alone
    Pair,
}

impl Type {
    /// By their numbers in C, with their words in job texts.
    const ALL: [(Type, &'static str); 10] = [
        (Type::I8, "i8"),
        (Type::I16, "i16"),
        (Type::I32, "i32"),
        (Type::I64, "i64"),
        (Type::U8, "u8"),
        (Type::U16, "u16"),
        (Type::U32, "u32"),
        (Type::U64, "u64"),
        (Type::Byte, "byte"),
        (Type::Pair, "2int"),
    ];
}
// tools/words: end of types

const NO_OPERATION: u8 = 0;

/// What all members of a communicator have to agree on at one place of their posting lists.
#[repr(C)]
#[derive(Clone, Copy, Debug, PartialEq, Eq, Hash)]
pub struct Call {
    kind: Kind,
    op: u8,
    ty: Type,
    root: u8,
    count: u32,
}

impl Call {
    /// A collective of blocks of `count` elements.
    fn new(kind: Kind, op: u8, ty: Type, root: u8, count: u32) -> Call {
        Call { kind, op, ty, root, count }
    }

    // tools/words: calls
    /// It is complete once all members have come to it.
    pub fn barrier() -> Call {
        Call::new(Kind::Barrier, NO_OPERATION, Type::Byte, 0, 0)
    }

    /// Every member gets member `root`'s block.
    pub fn bcast(root: u8, ty: Type, count: u32) -> Call {
        Call::new(Kind::Bcast, NO_OPERATION, ty, root, count)
    }

    /// Member `root` gets all blocks.
    pub fn gather(root: u8, ty: Type, count: u32) -> Call {
        Call::new(Kind::Gather, NO_OPERATION, ty, root, count)
    }

    /// Each member gets its block of those that member `root` gives.
    pub fn scatter(root: u8, ty: Type, count: u32) -> Call {
        Call::new(Kind::Scatter, NO_OPERATION, ty, root, count)
    }

    /// Every member gets all blocks.
    pub fn allgather(ty: Type, count: u32) -> Call {
        Call::new(Kind::Allgather, NO_OPERATION, ty, 0, count)
    }

    /// Each member gets its block of those that each gives.
    pub fn alltoall(ty: Type, count: u32) -> Call {
        Call::new(Kind::Alltoall, NO_OPERATION, ty, 0, count)
    }

    /// Member `root` gets the combination of all blocks.
    pub fn reduce(root: u8, op: Op, ty: Type, count: u32) -> Call {
        Call::new(Kind::Reduce, op as u8, ty, root, count)
    }

    /// Every member gets the combination of all blocks.
    pub fn allreduce(op: Op, ty: Type, count: u32) -> Call {
        Call::new(Kind::Allreduce, op as u8, ty, 0, count)
    }

    /// Each member gets its block of the combination of what all give.
    pub fn reduce_scatter_block(op: Op, ty: Type, count: u32) -> Call {
        Call::new(Kind::ReduceScatterBlock, op as u8, ty, 0, count)
    }

    /// Each member gets the combination of the blocks up to its own.
    pub fn scan(op: Op, ty: Type, count: u32) -> Call {
        Call::new(Kind::Scan, op as u8, ty, 0, count)
    }

    /// Each member gets the combination of the blocks before its own, and member 0 nothing.
    pub fn exscan(op: Op, ty: Type, count: u32) -> Call {
        Call::new(Kind::Exscan, op as u8, ty, 0, count)
    }
    // tools/words: end of calls

    /// Which collective it is.
    pub fn kind(&self) -> Kind {
        self.kind
    }

    /// Its operation, where it has one.
    pub fn op(&self) -> Option<Op> {
        Op::named(self.op).map(|(op, _)| op)
    }

    /// The type of its elements.
    pub fn ty(&self) -> Type {
        self.ty
    }

    /// The root's member number, 0 where it has no root.
    pub fn root(&self) -> u8 {
        self.root
    }

    /// The elements of a block; 0 for a barrier and for an allgatherv.
    pub fn count(&self) -> u32 {
        self.count
    }

    /// A call as the engine tells it.
    pub(crate) fn of(raw: &RawCall) -> Call {
        let (kind, _) = Kind::ALL[usize::from(raw.kind)];
        let (ty, _) = Type::ALL[usize::from(raw.ty)];
        Call::new(kind, raw.op, ty, raw.root, raw.count)
    }
}

impl fmt::Display for Call {
    /// What its kind has, in words: `bcast, i32, root 2, count 5`.
    fn fmt(&self, f: &mut fmt::Formatter<'_>) -> fmt::Result {
        let (_, kind) = Kind::ALL[self.kind as usize];
        let (_, ty) = Type::ALL[self.ty as usize];
        f.write_str(kind)?;
        if self.kind == Kind::Barrier {
            return Ok(());
        }
        if let Some((_, op)) = Op::named(self.op) {
            write!(f, ", {op}")?;
        }
        write!(f, ", {ty}")?;
        if self.kind.has_root() {
            write!(f, ", root {}", self.root)?;
        }
        if self.kind == Kind::Allgatherv {
            return Ok(());
        }
        write!(f, ", count {}", self.count)
    }
}
