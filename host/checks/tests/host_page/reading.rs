//! The C program that reads.
use crate::page::{blocks, built, folder};
use checks::corpus;
use std::process::Command;

#[test]
fn the_program_that_reads() {
    let [_, source, _] = blocks();
    let program = built(&folder("reading"), source, &[]);
    for (name, _) in corpus::FILES {
        let image = corpus::image(name);
        let entry = wrapper::by_seqnum(&image, 37);
        let mut expected = match entry {
            Ok(None) => b"none 0".to_vec(),
            Err(refusal) => format!("refused {}", refusal.number()).into_bytes(),
            Ok(Some(entry)) => {
                let stamps = wrapper::stamps(&image, entry).expect("it opens");
                let stamps = stamps.expect("an entry");
                let payload = wrapper::item(&image, entry, 0).expect("an item");
                let start = format!("{} {} ", stamps.seqnum, stamps.realtime);
                [start.as_bytes(), payload].concat()
            }
        };
        expected.push(b'\n');
        let path = corpus::path(name);
        let output = Command::new(&program).arg(path).output().expect("it runs");
        assert_eq!(output.stdout, expected, "{name}");
        assert_eq!(
            output.status.code(),
            Some(i32::from(!matches!(entry, Ok(Some(_))))),
            "{name}"
        );
    }
}
