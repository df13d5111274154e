//! The stream of two files entry by entry, a page at a time.
use crate::merged::{page_merged, Refused, Which};
use crate::pages::Entry;
use crate::turning::{Turning, PAGE};

/// The whole stream of two files: each entry with its file, without a list of them all at once.
///
/// ```
/// use wrapper::{stream, Which};
///
/// let read = |name: &str| std::fs::read(format!("../data/corpus/{name}.journal"));
/// let (first, second) = (read("bullseye-k1-c0-online")?, read("bullseye-k0-c0-system")?);
/// let of_second = |(file, _): &(Which, _)| *file == Which::Second;
/// assert_eq!(stream(&first, &second)?.filter(of_second).count(), 3);
///
/// let refused = stream(&first, b"no journal").expect_err("the second is none");
/// assert_eq!((refused.file, refused.refusal.number()), (Which::Second, 1));
/// # Ok::<(), Box<dyn std::error::Error>>(())
/// ```
pub fn stream<'a>(first: &'a [u8], second: &'a [u8]) -> Result<Stream<'a>, Refused> {
    Stream::new([first, second], [0, 0], PAGE)
}

/// Entries of two files, as `stream` has them.
#[derive(Debug)]
pub struct Stream<'a> {
    images: [&'a [u8]; 2],
    places: [u64; 2],
    page: Turning,
}

impl<'a> Stream<'a> {
    /// The stream from a place in each file on, by pages of so many bytes; a record that needs more
    /// gets it.
    ///
    /// ```
    /// use wrapper::{Stream, Which};
    ///
    /// let read = |name: &str| std::fs::read(format!("../data/corpus/{name}.journal"));
    /// let (first, second) = (read("bullseye-k1-c0-online")?, read("bullseye-k0-c0-system")?);
    /// let mut stream = Stream::new([&first, &second], [36, 0], 512)?;
    /// let (file, entry) = stream.next().expect("the last of the first file");
    /// assert_eq!((file, entry.seqnum), (Which::First, 37));
    /// assert!(stream.all(|(file, _)| file == Which::Second));
    /// # Ok::<(), Box<dyn std::error::Error>>(())
    /// ```
    pub fn new(
        images: [&'a [u8]; 2],
        places: [u64; 2],
        page: usize,
    ) -> Result<Stream<'a>, Refused> {
        let mut stream = Stream {
            images,
            places,
            page: Turning::new(page),
        };
        stream.turn()?;
        Ok(stream)
    }

    fn turn(&mut self) -> Result<(), Refused> {
        let [first, second] = self.images;
        self.page.turn(|page| {
            let [at_first, at_second] = self.places;
            let filled = page_merged(first, second, at_first, at_second, page)?;
            self.places = [filled.next_first, filled.next_second];
            Ok((filled.count, filled.next))
        })
    }
}

impl<'a> Iterator for Stream<'a> {
    type Item = (Which, Entry<'a>);

    fn next(&mut self) -> Option<(Which, Entry<'a>)> {
        self.turn().expect("the images opened, and are borrowed");
        let [first, second] = self.images;
        Some(self.page.take()?.turn_of(first, second))
    }
}
