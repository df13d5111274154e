//! Foreign objects: those of a type that the rules do not know, 8 and up. They are walked over, and
//! no lookup shows anything of them.
use crate::lookups::Offset;
use crate::raw;
use crate::refusal::Refusal;

/// Where a foreign object stands, and its type, 8 to 255.
#[derive(Clone, Copy, Debug, PartialEq, Eq)]
pub struct Foreign {
    pub offset: Offset,
    pub kind: u8,
}

/// The foreign object at a place from 0, in file order.
pub fn foreign(image: &[u8], place: u64) -> Result<Option<Foreign>, Refusal> {
    let answer = raw::foreign(image, place);
    Refusal::check(answer.refusal)?;
    // No object starts at 0.
    Ok((answer.offset > 0).then(|| Foreign {
        offset: Offset(answer.offset),
        kind: answer.kind.try_into().expect("a type is a byte"),
    }))
}

/// All foreign objects in file order. Each is a call that opens the image anew: that is no matter for
/// a few, and takes long where there are thousands in a long image.
///
/// ```
/// let image = std::fs::read("../data/corpus/bullseye-k1-c0-online.journal")?;
/// assert_eq!(wrapper::foreign_objects(&image)?.count(), 0);
///
/// // What does not open has none that could be named.
/// let refusal = wrapper::foreign_objects(&image[..65_000]).expect_err("its end is missing");
/// assert_eq!(refusal.number(), 5);
/// # Ok::<(), Box<dyn std::error::Error>>(())
/// ```
pub fn foreign_objects(image: &[u8]) -> Result<ForeignObjects<'_>, Refusal> {
    let next = foreign(image, 0)?;
    Ok(ForeignObjects {
        image,
        place: 0,
        next,
    })
}

/// Foreign objects, as `foreign_objects` has them.
#[derive(Debug)]
pub struct ForeignObjects<'a> {
    image: &'a [u8],
    /// Of the next one.
    place: u64,
    next: Option<Foreign>,
}

impl Iterator for ForeignObjects<'_> {
    type Item = Foreign;

    fn next(&mut self) -> Option<Foreign> {
        let object = self.next?;
        self.place += 1;
        self.next = foreign(self.image, self.place).expect("the image opened, and it is borrowed");
        Some(object)
    }
}
