//! Why a new file is refused, 20: the size, the cells or the header.
use crate::sizes::Sizes;
use crate::text::counted;
use wrapper::LONGEST_IMAGE;

const HEADER_SIZES: [u64; 2] = [256, 272];
const MOST_DATA_CELLS: u64 = 65_536;
const MOST_FIELD_CELLS: u64 = 1_024;

/// A sentence for a person; none where nothing is the matter.
pub fn of(sizes: &Sizes) -> Option<String> {
    let &Sizes {
        size,
        data_cells,
        field_cells,
        header_size,
    } = sizes;
    let cells = |option: &str, count: u64, most: u64| {
        let wrong = !(1..=most).contains(&count);
        wrong.then(|| format!("{option} {count}: a file has 1 to {most} of them"))
    };
    if size > LONGEST_IMAGE {
        return Some(format!(
            "--size {size}: a file has at most 8M, {LONGEST_IMAGE} bytes"
        ));
    }
    if size % 8 != 0 {
        return Some(format!("--size {size}: it is no multiple of 8"));
    }
    cells("--data-cells", data_cells, MOST_DATA_CELLS)
        .or_else(|| cells("--field-cells", field_cells, MOST_FIELD_CELLS))
        .or_else(|| {
            let [short, long] = HEADER_SIZES;
            let wrong = !HEADER_SIZES.contains(&header_size);
            wrong.then(|| {
                format!("--header-size {header_size}: a file is made with {short} or {long}")
            })
        })
        .or_else(|| {
            let need = sizes.without_entries();
            let [data, field] =
                [(data_cells, "data"), (field_cells, "field")].map(|(count, kind)| {
                    counted(
                        count as usize,
                        &format!("{kind} cell"),
                        &format!("{kind} cells"),
                    )
                });
            (need > size).then(|| {
                format!("--size {size}: {data} and {field} need {need} bytes, without an entry")
            })
        })
}
