use crate::ffi;
use crate::{number, Refusal};
use std::borrow::Cow;

const MAX_BLOCKS: usize = 4096;
const MAX_REGISTERS: usize = 16384;

/// What an instruction does. Only that of a block's last instruction says where the code goes on.
///
/// ```
/// use yexwalu::{Class, Function, InstKind, Refusal, Wanted};
/// let mut f = Function::new();
/// let hall = f.register(Class::Handle);
/// // a loop: block 0 goes to block 1 or to block 2, block 1 calls and goes back
/// f.instruction(InstKind::Conditional, &[], &[], &[1, 2]);
/// let call = f.instruction(InstKind::Safepoint, &[], &[], &[]);
/// f.instruction(InstKind::Branch, &[], &[], &[0]);
/// f.instruction(InstKind::Return, &[], &[hall], &[]);
/// for (start, end) in [(0, 1), (1, 3), (3, 4)] {
///     f.block(start, end);
/// }
/// // what is read after the loop is live in it
/// assert_eq!(f.live_at(call, Wanted::All)?, [hall]);
/// # Ok::<(), Refusal>(())
/// ```
#[derive(Clone, Copy, Debug, PartialEq, Eq, Hash)]
#[non_exhaustive]
pub enum InstKind {
    /// Goes on.
    Plain = 0,
    /// Goes on, and may collect before it does: the live map has an entry for it.
    Safepoint = 1,
    /// Goes to its target.
    Branch = 2,
    /// Goes to one of its targets.
    Conditional = 3,
    /// Goes to one of its arms, or to its default.
    Case = 4,
    /// Leaves the function.
    Return = 5,
    /// Is never reached.
    Unreachable = 6,
}

/// What a register holds.
///
/// ```
/// use yexwalu::{Class, Function, InstKind, Refusal, Wanted};
/// let mut f = Function::new();
/// let all = [Class::I64, Class::F64, Class::Ptr, Class::Sig, Class::Handle].map(|class| f.register(class));
/// let call = f.instruction(InstKind::Safepoint, &[], &[], &[]);
/// f.instruction(InstKind::Return, &[], &all, &[]);
/// f.block(0, 2);
/// // the address and the handle
/// assert_eq!(f.live_at(call, Wanted::References)?, [2, 4]);
/// # Ok::<(), Refusal>(())
/// ```
#[derive(Clone, Copy, Debug, PartialEq, Eq, Hash)]
#[non_exhaustive]
pub enum Class {
    /// A whole number.
    I64 = 0,
    /// A floating point number.
    F64 = 1,
    /// An address.
    Ptr = 2,
    /// A signal.
    Sig = 3,
    /// A handle: where it is live, a root of the joined collection.
    Handle = 4,
}

/// Which registers a live map has.
///
/// ```
/// use yexwalu::{Class, Function, InstKind, Refusal, Wanted};
/// let mut f = Function::new();
/// let (count, hall) = (f.register(Class::I64), f.register(Class::Handle));
/// let call = f.instruction(InstKind::Safepoint, &[], &[], &[]);
/// f.instruction(InstKind::Return, &[], &[count, hall], &[]);
/// f.block(0, 2);
/// assert_eq!(f.live_at(call, Wanted::References)?, [hall]);
/// assert_eq!(f.live_at(call, Wanted::All)?, [count, hall]);
/// # Ok::<(), Refusal>(())
/// ```
#[derive(Clone, Copy, Debug, PartialEq, Eq, Hash)]
#[non_exhaustive]
pub enum Wanted {
    /// Those of classes `Ptr` and `Handle`.
    References,
    /// All.
    All,
}

/// The code of a function, as the live map reads it: what its instructions write and read, and where they go. Registers and targets that are not there are ignored. At most 65,536 instructions, 4,096 blocks and
/// 16,384 registers; blocks may not share an instruction. What is not so is refused (15) when the function is used, not before.
///
/// ```
/// use yexwalu::{Class, Function, InstKind, Refusal, Wanted};
/// let mut f = Function::new();
/// let hall = f.register(Class::Handle);
/// let count = f.register(Class::I64);
/// let start = f.position();
/// f.instruction(InstKind::Plain, &[hall, count], &[], &[]);
/// let call = f.instruction(InstKind::Safepoint, &[], &[], &[]);
/// f.instruction(InstKind::Return, &[], &[hall, count], &[]);
/// f.block(start, f.position());
/// assert_eq!(f.live_at(call, Wanted::References)?, [hall]);
/// assert_eq!(f.live_refs(Wanted::All)?, [(call, vec![hall, count])]);
/// # Ok::<(), Refusal>(())
/// ```
#[derive(Clone, Debug, Default, PartialEq, Eq)]
#[non_exhaustive]
pub struct Function {
    /// One an instruction: a number of `InstKind`.
    pub kinds: Vec<u8>,
    /// Three an instruction: where its registers written, its registers read and its target blocks end in `refs`.
    pub ends: Vec<u32>,
    /// All registers and targets in a row.
    pub refs: Vec<u32>,
    /// Start and end of each block; it is empty where the end is not above the start.
    pub blocks: Vec<u32>,
    /// One a register: a number of `Class`.
    pub classes: Vec<u8>,
}

impl Function {
    /// A function without code.
    ///
    /// ```
    /// use yexwalu::{Function, Refusal, Wanted};
    /// let f = Function::new();
    /// assert_eq!(f.position(), 0);
    /// assert!(f.live_refs(Wanted::All)?.is_empty());
    /// # Ok::<(), Refusal>(())
    /// ```
    #[must_use]
    pub fn new() -> Function {
        Function::default()
    }

    /// A new register; the answer is its number.
    ///
    /// ```
    /// use yexwalu::{Class, Function};
    /// let mut f = Function::new();
    /// assert_eq!((f.register(Class::Handle), f.register(Class::I64)), (0, 1));
    /// ```
    pub fn register(&mut self, class: Class) -> u32 {
        let register = number(self.classes.len());
        self.classes.push(class as u8);
        register
    }

    /// The number of the next instruction.
    ///
    /// ```
    /// use yexwalu::{Function, InstKind};
    /// let mut f = Function::new();
    /// let start = f.position();
    /// f.instruction(InstKind::Return, &[], &[], &[]);
    /// assert_eq!((start, f.position()), (0, 1));
    /// f.block(start, f.position());
    /// ```
    #[must_use]
    pub fn position(&self) -> u32 {
        number(self.kinds.len())
    }

    /// A new instruction; the answer is its number. Targets are block numbers; those of a case are its arms, then the default. Past
    /// 4,294,967,295 registers and targets in all the function is refused (15).
    ///
    /// ```
    /// use yexwalu::{Class, Function, InstKind};
    /// let mut f = Function::new();
    /// let [sum, a, b] = [Class::I64; 3].map(|class| f.register(class));
    /// // sum = a + b, and then to block 1 or to block 2, by `sum`
    /// assert_eq!(f.instruction(InstKind::Plain, &[sum], &[a, b], &[]), 0);
    /// assert_eq!(f.instruction(InstKind::Conditional, &[], &[sum], &[1, 2]), 1);
    /// assert_eq!(f.refs, [sum, a, b, sum, 1, 2]);
    /// ```
    pub fn instruction(&mut self, kind: InstKind, writes: &[u32], reads: &[u32], targets: &[u32]) -> u32 {
        let instruction = self.position();
        let fits = self.refs.len() + writes.len() + reads.len() + targets.len() <= u32::MAX as usize;
        // what has no place any more is left out, and the function is refused: there is no such kind
        self.kinds.push(if fits { kind as u8 } else { u8::MAX });
        for part in [writes, reads, targets] {
            self.refs.extend_from_slice(if fits { part } else { &[] });
            self.ends.push(number(self.refs.len()));
        }
        instruction
    }

    /// A block of the instructions from `start` up to `end`, without that; the answer is its number.
    ///
    /// ```
    /// use yexwalu::{Function, InstKind};
    /// let mut f = Function::new();
    /// f.instruction(InstKind::Branch, &[], &[], &[1]);
    /// f.instruction(InstKind::Return, &[], &[], &[]);
    /// assert_eq!((f.block(0, 1), f.block(1, 2)), (0, 1));
    /// ```
    pub fn block(&mut self, start: u32, end: u32) -> u32 {
        let block = number(self.blocks.len() / 2);
        self.blocks.extend_from_slice(&[start, end]);
        block
    }

    /// How many words of scratch the live map takes: (3 × blocks + 2) × words per row, a row having a bit a register.
    ///
    /// ```
    /// use yexwalu::{Class, Function, InstKind};
    /// let mut f = Function::new();
    /// for _ in 0..65 {
    ///     f.register(Class::I64);
    /// }
    /// f.instruction(InstKind::Return, &[], &[], &[]);
    /// f.block(0, 1);
    /// // five rows, of two words each
    /// assert_eq!(f.scratch_words(), 10);
    /// ```
    #[must_use]
    pub fn scratch_words(&self) -> usize {
        (3 * (self.blocks.len() / 2) + 2).saturating_mul(self.classes.len().div_ceil(64))
    }

    // What the calls with scratch of their own are made on. A function of too many blocks or registers is refused (15), but only after too little scratch (18), and it may take more than there is:
    // a small function that is refused like it stands for it. Its block lies past its code.
    pub(crate) fn within_counts(&self) -> Cow<'_, Function> {
        if self.blocks.len() / 2 <= MAX_BLOCKS && self.classes.len() <= MAX_REGISTERS {
            return Cow::Borrowed(self);
        }
        Cow::Owned(Function { blocks: vec![0, 1], ..Function::default() })
    }

    /// The registers that are live before a safepoint, rising. It is refused where the function is not in order (15), or `pc` is no safepoint of a block (16).
    ///
    /// ```
    /// use yexwalu::{Class, Function, InstKind, Refusal, Wanted};
    /// let mut f = Function::new();
    /// let (hall, count) = (f.register(Class::Handle), f.register(Class::I64));
    /// let call = f.instruction(InstKind::Safepoint, &[], &[], &[]);
    /// f.instruction(InstKind::Return, &[], &[hall, count], &[]);
    /// f.block(0, 2);
    /// assert_eq!(f.live_at(call, Wanted::References)?, [hall]);
    /// assert_eq!(f.live_at(call, Wanted::All)?, [hall, count]);
    /// assert_eq!(f.live_at(1, Wanted::All), Err(Refusal::NoMap));
    /// # Ok::<(), Refusal>(())
    /// ```
    pub fn live_at(&self, pc: u32, wanted: Wanted) -> Result<Vec<u32>, Refusal> {
        let f = self.within_counts();
        let mut regs = vec![0; f.classes.len()];
        let n = f.live_at_into(pc, wanted, &mut regs, &mut vec![0; f.scratch_words()])?;
        regs.truncate(n);
        Ok(regs)
    }

    /// As `live_at`, with the registers written to the front of a lent output (7), and lent scratch, of `scratch_words` at least (18). The answer is how many.
    ///
    /// ```
    /// use yexwalu::{Class, Function, InstKind, Refusal, Wanted};
    /// let mut f = Function::new();
    /// let hall = f.register(Class::Handle);
    /// let call = f.instruction(InstKind::Safepoint, &[], &[], &[]);
    /// f.instruction(InstKind::Return, &[], &[hall], &[]);
    /// f.block(0, 2);
    /// let (mut regs, mut rows) = ([0; 8], vec![0; f.scratch_words()]);
    /// let n = f.live_at_into(call, Wanted::All, &mut regs, &mut rows)?;
    /// assert_eq!(regs[..n], [hall]);
    /// assert_eq!(f.live_at_into(call, Wanted::All, &mut [], &mut rows), Err(Refusal::ShortList));
    /// assert_eq!(f.live_at_into(call, Wanted::All, &mut regs, &mut []), Err(Refusal::Scratch));
    /// # Ok::<(), Refusal>(())
    /// ```
    pub fn live_at_into(&self, pc: u32, wanted: Wanted, regs: &mut [u32], rows: &mut [u64]) -> Result<usize, Refusal> {
        // SAFETY: each pointer leads to as many elements as the length after it says. What the call writes, scratch and output, is borrowed mutably.
        #[rustfmt::skip]
        let answer = unsafe {
            ffi::yexwalu_live_at(
                self.kinds.as_ptr(), self.kinds.len(),
                self.ends.as_ptr(), self.ends.len(),
                self.refs.as_ptr(), self.refs.len(),
                self.blocks.as_ptr(), self.blocks.len(),
                self.classes.as_ptr(), self.classes.len(),
                wanted == Wanted::All,
                pc as usize,
                regs.as_mut_ptr(), regs.len(),
                rows.as_mut_ptr(), rows.len(),
            )
        };
        Refusal::check(answer.number)?;
        Ok(answer.first as usize)
    }

    /// Every safepoint of a block, rising, with the registers that are live before it, rising. It is refused where the function is not in order (15).
    ///
    /// ```
    /// use yexwalu::{Class, Function, InstKind, Refusal, Wanted};
    /// let mut f = Function::new();
    /// let (hall, count) = (f.register(Class::Handle), f.register(Class::I64));
    /// let first = f.instruction(InstKind::Safepoint, &[], &[], &[]);
    /// f.instruction(InstKind::Plain, &[count], &[hall], &[]);
    /// let second = f.instruction(InstKind::Safepoint, &[], &[], &[]);
    /// f.instruction(InstKind::Return, &[], &[count], &[]);
    /// f.block(0, 4);
    /// assert_eq!(f.live_refs(Wanted::All)?, [(first, vec![hall]), (second, vec![count])]);
    /// # Ok::<(), Refusal>(())
    /// ```
    pub fn live_refs(&self, wanted: Wanted) -> Result<Vec<(u32, Vec<u32>)>, Refusal> {
        let f = self.within_counts();
        let mut rows = vec![0; f.scratch_words()];
        let mut pcs = vec![0; f.kinds.len()];
        let mut bounds = vec![0; f.kinds.len()];
        let mut room = f.kinds.len();
        loop {
            let mut regs = vec![0; room];
            match f.live_refs_into(wanted, &mut pcs, &mut bounds, &mut regs, &mut rows) {
                Err(Refusal::ShortList) => room = 2 * room + 1,
                Err(why) => return Err(why),
                Ok((points, _)) => {
                    let mut from = 0;
                    let mut map = Vec::with_capacity(points);
                    for i in 0..points {
                        let to = bounds[i] as usize;
                        map.push((pcs[i], regs[from..to].to_vec()));
                        from = to;
                    }
                    return Ok(map);
                }
            }
        }
    }

    /// As `live_refs`, with the answer at the front of lent outputs (7): the safepoints, where the registers of each end, the registers; and lent scratch, of `scratch_words` at least (18). The answer is how
    /// many safepoints and registers.
    ///
    /// ```
    /// use yexwalu::{Class, Function, InstKind, Refusal, Wanted};
    /// let mut f = Function::new();
    /// let (hall, count) = (f.register(Class::Handle), f.register(Class::I64));
    /// let first = f.instruction(InstKind::Safepoint, &[], &[], &[]);
    /// let second = f.instruction(InstKind::Safepoint, &[hall], &[], &[]);
    /// f.instruction(InstKind::Return, &[], &[hall, count], &[]);
    /// f.block(0, 3);
    /// let (mut pcs, mut bounds, mut regs) = ([0; 4], [0; 4], [0; 4]);
    /// let (points, registers) = f.live_refs_into(Wanted::All, &mut pcs, &mut bounds, &mut regs, &mut vec![0; f.scratch_words()])?;
    /// assert_eq!((&pcs[..points], &bounds[..points]), (&[first, second][..], &[1, 2][..]));
    /// assert_eq!(regs[..registers], [count, count]);
    /// # Ok::<(), Refusal>(())
    /// ```
    pub fn live_refs_into(&self, wanted: Wanted, pcs: &mut [u32], bounds: &mut [u32], regs: &mut [u32], rows: &mut [u64]) -> Result<(usize, usize), Refusal> {
        // SAFETY: each pointer leads to as many elements as the length after it says. What the call writes, scratch and outputs, is borrowed mutably.
        #[rustfmt::skip]
        let answer = unsafe {
            ffi::yexwalu_live_refs(
                self.kinds.as_ptr(), self.kinds.len(),
                self.ends.as_ptr(), self.ends.len(),
                self.refs.as_ptr(), self.refs.len(),
                self.blocks.as_ptr(), self.blocks.len(),
                self.classes.as_ptr(), self.classes.len(),
                wanted == Wanted::All,
                pcs.as_mut_ptr(), pcs.len(),
                bounds.as_mut_ptr(), bounds.len(),
                regs.as_mut_ptr(), regs.len(),
                rows.as_mut_ptr(), rows.len(),
            )
        };
        Refusal::check(answer.number)?;
        Ok((answer.first as usize, answer.second as usize))
    }
}
