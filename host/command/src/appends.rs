//! What was typed after `append`, of one entry or of a batch, and after `import`.
use crate::arguments::{id, number, time};
use crate::fault::Fault;
use crate::stamps::Wished;
use crate::ways::Way;
use crate::words::Words;
use crate::writes::{flags, manner, What, Write};
use crate::{append, batch, import};
use std::ffi::OsString;
use std::os::unix::ffi::OsStringExt;
use std::path::PathBuf;

/// The options with a value: those that a text leaves no choice of, and those of `import` too.
const STAMPS: [&str; 3] = ["--time", "--monotonic", "--boot"];
const BATCH: [&str; 5] = ["--seqnum", "--machine", "--wait", "--from", "--sync"];

pub fn append(rest: &[OsString]) -> Result<Write, Fault> {
    let (rest, [batch, anyway, quiet]) = flags(rest, ["--batch", "--anyway", "--quiet"]);
    let mut words = Words::new(&rest, &[&STAMPS[..], &BATCH].concat())?;
    let payloads = words.plain.drain(1.min(words.plain.len())..);
    let payloads = Vec::from_iter(payloads.map(OsString::into_vec));
    let stamps = Wished {
        seqnum: words.option("--seqnum", number)?,
        realtime: words.option("--time", time)?,
        monotonic: words.option("--monotonic", number)?,
        machine: words.option("--machine", id)?,
        boot: words.option("--boot", id)?,
        anyway,
    };
    let from = words.option("--from", |value| Ok(PathBuf::from(value)))?;
    let way = words.option("--sync", Way::typed)?;
    let of_a_batch = ["--from", "--sync"].into_iter().find(|it| words.given(it));
    let manner = manner(&words, quiet)?;
    let usage = match batch {
        true => "append --batch FILE and options",
        false => "append FILE, options and fields",
    };
    let [file] = words.plain(usage)?;
    let what = match (batch, of_a_batch, &payloads[..]) {
        (true, _, []) => What::Batch(batch::Wish {
            stamps,
            from,
            way: way.unwrap_or(Way::Redo),
        }),
        (true, ..) => {
            let why = "the entries of a batch are lines of standard input or of --from TEXT";
            return Err(Fault::usage(format!("{why}, and no field is typed here")));
        }
        (false, Some(name), _) => return Err(Fault::usage(format!("{name} goes with --batch"))),
        (false, None, []) => return Err(Fault::usage("a field NAME=VALUE is missing")),
        (false, None, _) => What::Append(append::Wish { stamps, payloads }),
    };
    Ok(Write {
        file: file.into(),
        what,
        manner,
    })
}

/// The stamps are those of the text.
pub fn import(rest: &[OsString]) -> Result<Write, Fault> {
    let (rest, [quiet]) = flags(rest, ["--quiet"]);
    let words = Words::new(&rest, &BATCH)?;
    let wish = import::Wish {
        seqnum: words.option("--seqnum", number)?,
        machine: words.option("--machine", id)?,
        from: words.option("--from", |value| Ok(PathBuf::from(value)))?,
        way: words.option("--sync", Way::typed)?.unwrap_or(Way::Redo),
    };
    let manner = manner(&words, quiet)?;
    let [file] = words.plain("import FILE and options")?;
    Ok(Write {
        file: file.into(),
        what: What::Import(wish),
        manner,
    })
}
