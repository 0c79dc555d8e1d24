use crate::ffi::Figures;
use crate::held::{self, Parts};
use crate::{Heap, Refusal};

// No line is longer: seven numbers of 20 digits, each with what ends it.
const LINE: usize = 160;

impl Heap {
    /// How many objects there are, the bytes of their data, and the most that one of them has: what the program `shelf` shows of the heap's page. Refused as every call is, by 18 and 1.
    ///
    /// ```
    /// use yexwalu::{Figures, Heap, Kind, Refusal};
    /// let mut heap = Heap::new(1, 64, 4096)?;
    /// assert_eq!(heap.figures()?, Figures::default());
    /// heap.alloc(Kind::Bytes, b"hall")?;
    /// heap.alloc_from(Kind::Bytes, 1, b".organ")?;
    /// let figures = heap.figures()?;
    /// assert_eq!((figures.objects, figures.bytes, figures.largest), (2, 10, 6));
    /// # Ok::<(), Refusal>(())
    /// ```
    pub fn figures(&self) -> Result<Figures, Refusal> {
        // once this is answered the heap is known to be well formed
        self.slots()?;
        let (p, m) = (Parts::read(self.header()), self.memory());
        // SAFETY: the heap is known to be well formed (`held`). Pointers lead to as many elements as said, and the call only reads what they lead to.
        #[rustfmt::skip]
        let figures = unsafe {
            held::yexwalu_held_figures(
                p.tag, p.numbers, p.log, p.lengths,
                m.narrow.as_ptr().cast_mut(), m.narrow.len(),
                m.wide.as_ptr().cast_mut(), m.wide.len(),
                m.pool.as_ptr().cast_mut(), m.pool.len(),
            )
        };
        Ok(figures)
    }
}

impl Figures {
    /// These and others together: the sums of objects and bytes, and the larger of the largest. A sum past 64 bits, which no heaps have, stays at the last number.
    ///
    /// ```
    /// use yexwalu::{Heap, Kind, Refusal};
    /// let mut heap = Heap::new(1, 64, 4096)?;
    /// heap.alloc(Kind::Bytes, b"hall")?;
    /// let both = heap.figures()?.and(heap.figures()?);
    /// assert_eq!((both.objects, both.bytes, both.largest), (2, 8, 4));
    /// # Ok::<(), Refusal>(())
    /// ```
    #[must_use]
    pub fn and(self, other: Figures) -> Figures {
        // SAFETY: the call takes two values and answers one. It has no `requires`.
        unsafe { held::yexwalu_held_figures_and(self, other) }
    }

    /// The line that is printed of a page by its number and its answer, or with page 0 that of all of them: `page,answer,objects,bytes,largest,mean,rest`, with byte 10 at its end. Mean and rest are quotient and remainder of bytes by objects,
    /// 0 without any.
    ///
    /// ```
    /// use yexwalu::{Figures, Heap, Kind, Refusal};
    /// let mut heap = Heap::new(1, 64, 4096)?;
    /// heap.alloc(Kind::Bytes, b"hall")?;
    /// heap.alloc(Kind::Bytes, b"organ")?;
    /// assert_eq!(heap.figures()?.line(1, 0), b"1,0,2,9,5,4,1\n");
    /// assert_eq!(Figures::default().line(2, Refusal::Page.number()), b"2,17,0,0,0,0,0\n");
    /// # Ok::<(), Refusal>(())
    /// ```
    #[must_use]
    pub fn line(self, page: u64, answer: u64) -> Vec<u8> {
        let mut out = [0; LINE];
        // SAFETY: the output is as long as the call's parameter, and borrowed mutably.
        let told = unsafe { held::yexwalu_held_figures_line(page, answer, self, out.as_mut_ptr()) };
        out[..told.first as usize].to_vec()
    }
}
