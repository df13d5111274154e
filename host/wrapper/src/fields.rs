//! The fields of an append, packed as the library takes them.
use crate::refusal::Refusal;

/// Fields `NAME=value` in one buffer: for each a length of 4 bytes, little-endian, and the payload.
///
/// ```
/// use wrapper::{Fields, Refusal};
///
/// let mut fields = Fields::new();
/// fields.add("LOT", "12")?.add("NOTE", [0xff, 0x00])?;
/// assert_eq!(fields.packed(), b"\x06\0\0\0LOT=12\x07\0\0\0NOTE=\xff\0");
///
/// // This would be the field LOT with the value 12=13.
/// let refusal = fields.add("LOT=12", "13").expect_err("a name has no `=`");
/// assert_eq!(refusal.number(), 16);
/// assert_eq!(fields.packed().len(), 21);
/// # Ok::<(), Refusal>(())
/// ```
#[derive(Clone, Debug, Default, PartialEq, Eq)]
pub struct Fields {
    packed: Vec<u8>,
}

impl Fields {
    /// No fields yet, which an append is refused for.
    pub fn new() -> Fields {
        Fields::default()
    }

    /// Adds a field. 16 where packed bytes could not tell what was meant: a name with `=` in it, and
    /// a payload whose length 4 bytes do not hold. All else that is wrong with a field is 16 too,
    /// and `plan` says it.
    pub fn add(
        &mut self,
        name: impl AsRef<[u8]>,
        value: impl AsRef<[u8]>,
    ) -> Result<&mut Fields, Refusal> {
        let (name, value) = (name.as_ref(), value.as_ref());
        if name.contains(&b'=') {
            return Err(wrong());
        }
        self.add_payload([name, b"=", value].concat())
    }

    /// Adds a payload that is `NAME=value` already; 16 as for `add`.
    ///
    /// ```
    /// # use wrapper::{Fields, Refusal};
    /// let (mut one, mut other) = (Fields::new(), Fields::new());
    /// one.add("LOT", "12=13")?;
    /// other.add_payload("LOT=12=13")?;
    /// assert_eq!(one, other);
    /// # Ok::<(), Refusal>(())
    /// ```
    pub fn add_payload(&mut self, payload: impl AsRef<[u8]>) -> Result<&mut Fields, Refusal> {
        let payload = payload.as_ref();
        let len = u32::try_from(payload.len()).map_err(|_| wrong())?;
        self.packed.extend(len.to_le_bytes());
        self.packed.extend(payload);
        Ok(self)
    }

    /// What a `Request` has as its `fields`.
    pub fn packed(&self) -> &[u8] {
        &self.packed
    }

    /// The payloads `NAME=value`, in order.
    ///
    /// ```
    /// # use wrapper::{Fields, Refusal};
    /// let mut fields = Fields::new();
    /// fields.add("LOT", "12")?.add("NOTE", "")?;
    /// assert!(fields.payloads().eq([&b"LOT=12"[..], b"NOTE="]));
    /// # Ok::<(), Refusal>(())
    /// ```
    pub fn payloads(&self) -> impl Iterator<Item = &[u8]> {
        let mut rest = &self.packed[..];
        std::iter::from_fn(move || {
            let (len, after) = rest.split_first_chunk()?;
            let (payload, after) = after.split_at(u32::from_le_bytes(*len) as usize);
            rest = after;
            Some(payload)
        })
    }

    /// Fields that the library packed.
    pub(crate) fn packed_so(packed: Vec<u8>) -> Fields {
        Fields { packed }
    }
}

fn wrong() -> Refusal {
    Refusal::new(16).expect("it is not 0")
}
