use crate::{Form, Header, Heap, Refusal};

impl Heap {
    /// The heap of a page, in as much memory as the text can need: no count in it is trusted for that. It is refused where the text is no page (17), what it shows is no heap (1), and where that has more data
    /// (6) or more slots (5) than any heap. The heap has room for no more than it holds, or little more: `read_page` gives room for more.
    ///
    /// ```
    /// use yexwalu::{Heap, Kind, Refusal};
    /// let mut heap = Heap::new(1, 64, 4096)?;
    /// let hall = heap.alloc(Kind::Bytes, b"AB")?;
    /// let opened = Heap::open(&heap.write_page()?)?;
    /// assert_eq!(opened.data(opened.resolve(hall)?)?, b"AB");
    /// assert_eq!(Heap::open(b"no page"), Err(Refusal::Page));
    /// # Ok::<(), Refusal>(())
    /// ```
    pub fn open(text: &[u8]) -> Result<Heap, Refusal> {
        Heap::open_with_form(text).map(|opened| opened.0)
    }

    /// As `open`, with the form that the page has.
    ///
    /// ```
    /// use yexwalu::{Column, Heap, Kind, Refusal};
    /// let mut heap = Heap::new(1, 64, 4096)?;
    /// heap.alloc(Kind::Bytes, b"AB")?;
    /// let page = heap.page_with(Column::Planes)?;
    /// let (opened, form) = Heap::open_with_form(&page)?;
    /// assert_eq!(form.to_string(), "writes64, planes, retired");
    /// assert_eq!(opened.page_with(form.column)?, page);
    /// # Ok::<(), Refusal>(())
    /// ```
    pub fn open_with_form(text: &[u8]) -> Result<(Heap, Form), Refusal> {
        // a slot has a line, a byte of data two digits
        let lines = text.iter().filter(|b| **b == b'\n').count();
        let (memory, scratch) = Heap::memory_for(lines.clamp(1, Heap::MAX_SLOTS), (text.len() / 2).min(Heap::MAX_POOL));
        let mut heap = Heap::from_parts(Header::default(), memory, scratch);
        let form = heap.read_page_over(text)?;
        Ok((heap, form))
    }
}
