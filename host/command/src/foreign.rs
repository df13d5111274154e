//! Foreign objects: those of a type that is not known here, 8 and up, which reading walks over.
//! `foreign` lists them, and `check` counts them.
use crate::columns::Cells;
use crate::fault::Fault;
use crate::files;
use crate::form::Form;
use std::collections::BTreeMap;
use std::io::Write;
use std::path::Path;
use wrapper::{foreign_objects, Foreign, Refusal};

pub fn foreign(file: &Path, form: &Form, out: &mut impl Write) -> Result<(), Fault> {
    let image = files::read(file)?;
    let refused = |refusal| Fault::refused(file, &image, refusal);
    let objects = foreign_objects(&image).map_err(refused)?;
    let (columns, rows) = ([Column::Offset, Column::Type], Vec::from_iter(objects));
    form.cells(&columns, &rows, out).map_err(Fault::answer)
}

/// How many are counted for `check`: each is a call that opens the file anew.
const COUNTED: usize = 100;

/// How many there are, and of which types; nothing where there are none.
pub fn words(image: &[u8]) -> Result<Option<String>, Refusal> {
    let mut objects = foreign_objects(image)?;
    let mut types = BTreeMap::new();
    for object in objects.by_ref().take(COUNTED) {
        *types.entry(object.kind).or_insert(0) += 1;
    }
    let count: usize = types.values().sum();
    let each = types
        .iter()
        .map(|(kind, count)| format!("{count} of type {kind}"));
    let each = Vec::from_iter(each).join(", ");
    Ok(match objects.next() {
        Some(_) => Some(format!(
            "foreign objects: more than {COUNTED} (of the first {COUNTED}: {each})"
        )),
        None if count > 0 => Some(format!("foreign objects: {count} ({each})")),
        None => None,
    })
}

/// The columns that they are printed in.
enum Column {
    Offset,
    Type,
}

impl Cells<Foreign> for Column {
    fn heading(&self) -> String {
        match self {
            Column::Offset => "offset".to_string(),
            Column::Type => "type".to_string(),
        }
    }

    fn cell(&self, object: &Foreign) -> Option<String> {
        Some(match self {
            Column::Offset => object.offset.0.to_string(),
            Column::Type => object.kind.to_string(),
        })
    }

    fn at_the_right(&self) -> bool {
        true
    }
}
