//! What is typed of a file by the commands that have `--plain`.

/// Of every file.
const ALWAYS: [&[&str]; 19] = [
    &["list", "-o", "table"],
    &["list", "-o", "tsv"],
    &["list", "-o", "csv"],
    &["list", "-o", "json"],
    &["list", "--no-header"],
    &["list", "-n", "2"],
    &["list", "-n", "2", "--reverse"],
    &["list", "--fields", "MESSAGE,A,LOT", "--since", "5"],
    &["list", "--until", "1700000000000030"],
    &["find", "--seqnum", "0"],
    &["find", "--seqnum", "3", "-o", "json"],
    &["find", "--seqnum", "18446744073709551615"],
    &["find", "--time", "5"],
    &["find", "--time", "18446744073709551615"],
    &["find", "--field", "NOT=there"],
    &["values", "NOT"],
    &["values", "A"],
    &["values", "MESSAGE"],
    &["values", ""],
];

/// Everything that the commands have, with what is in a file that opens and what is not.
pub fn everything(image: &[u8]) -> Vec<Vec<String>> {
    let owned = |words: &[&str]| Vec::from_iter(words.iter().map(|it| it.to_string()));
    let mut all = Vec::from_iter(ALWAYS.map(owned));
    let entries = wrapper::all_entries(image).expect("it opens");
    for entry in entries.iter().step_by(7).take(4) {
        let (seqnum, time) = (entry.seqnum.to_string(), entry.realtime.to_string());
        let payloads = Vec::from_iter(entry.payloads.iter().map(|it| escaped(it)));
        let (first, last) = (&payloads[0], &payloads[payloads.len() - 1]);
        let mut names = entry.payloads[0].split(|&byte| byte == b'=');
        let name = escaped(names.next().expect("a name"));
        let of_it: [&[&str]; 6] = [
            &["find", "--seqnum", &seqnum],
            &["find", "--time", &time, "--fields", "A"],
            &["find", "--field", first],
            &["find", "--field", last, "--field", first, "-n", "3"],
            &["find", "--field", last, "--field", "NOT=there"],
            &["values", &name],
        ];
        all.extend(of_it.map(owned));
    }
    all
}

/// Bytes as they can be typed: the `=` is typed as it is.
fn escaped(bytes: &[u8]) -> String {
    let byte = |&it: &u8| match it {
        b'=' => "=".to_string(),
        _ => format!("\\x{it:02x}"),
    };
    bytes.iter().map(byte).collect()
}
