//! How foreign objects are tried: every place of an image, the archive's answer compared with the
//! reading's, and what it names with what was put there.
use super::example::{example, LIST};
use checks::against::foreign::compare;
use checks::against::trial::hex;
use checks::generator::draft::{Draft, Part};
use checks::generator::rendered::Rendered;

/// How many images were tried: by the number of their foreign objects, up to 4, and by the refusal.
#[derive(Default)]
pub struct Tried {
    pub named: [u64; 5],
    pub refused: [u64; 12],
}

impl Tried {
    /// Compares the answers at every place with the reading's; the number of foreign objects.
    pub fn image(&mut self, image: &[u8]) -> u64 {
        let tried = self.named.iter().chain(&self.refused).sum();
        let answer = compare(image, tried);
        match answer.unwrap_or_else(|difference| panic!("{difference}, of {}", hex(image))) {
            Ok(count) => {
                self.named[count.min(4) as usize] += 1;
                count
            }
            Err(number) => {
                self.refused[number as usize] += 1;
                0
            }
        }
    }

    /// The same; what is named is what was put there, by offset and type.
    pub fn names(&mut self, image: &[u8], put: &[(u64, u8)]) {
        assert_eq!(self.image(image), put.len() as u64);
        let named = wrapper::foreign_objects(image).expect("it opens");
        let named: Vec<(u64, u8)> = named.map(|it| (it.offset.0, it.kind)).collect();
        assert_eq!(named, put, "{}", hex(image));
    }

    /// The same of a draft.
    pub fn drawn(&mut self, made: &Rendered) {
        let put = made.draft.order.iter().filter_map(|&part| {
            let kind = match made.draft.parts[part] {
                Part::Foreign { kind, .. } => kind,
                _ => return None,
            };
            Some((made.offsets[part], kind))
        });
        self.names(&made.image, &Vec::from_iter(put));
    }

    pub fn print(&self, what: &str) {
        let Tried { named, refused } = self;
        println!("{what}: images with 0 to 3 and more {named:?}, refused {refused:?}");
    }
}

/// The example without TAGs and foreign objects.
pub fn bare() -> Draft {
    let mut draft = example();
    draft.parts.truncate(LIST + 1);
    draft.order.truncate(LIST + 1);
    draft
}
