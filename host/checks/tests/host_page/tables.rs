//! The tables of the page for those who write a host.
use crate::declarations::exports;
use crate::page::{archive, HOST};
use wrapper::Refusal;

/// The cells of the rows of the table under a heading.
fn rows(heading: &str) -> Vec<Vec<&'static str>> {
    let (_, section) = HOST.split_once(heading).expect("the heading");
    let lines = section.lines().skip_while(|line| !line.starts_with('|'));
    let lines = lines.take_while(|line| line.starts_with('|')).skip(2);
    let cells = |line: &'static str| line.trim_matches('|').split('|').map(str::trim).collect();
    lines.map(cells).collect()
}

/// Every number in its order, with its condition as the rules have it.
#[test]
fn refusals() {
    let rows = rows("\n## Refusals\n");
    let numbers = Vec::from_iter((1..=25).chain([28]));
    assert_eq!(rows.len(), numbers.len());
    for (row, number) in rows.iter().zip(numbers) {
        let refusal = Refusal::new(number).expect("not 0");
        let [first, short, condition] = row[..] else {
            panic!("{row:?} has three cells");
        };
        assert_eq!((first, condition), (&*number.to_string(), refusal.row()));
        assert!(short.len() > 5, "{short}");
    }
}

/// Every export with its parameters, and nothing else.
#[test]
fn calls() {
    let rows = rows("\n## The calls\n");
    let mut listed: Vec<&str> = rows.iter().flat_map(|row| row[0].split("`, `")).collect();
    let call = |name: &str, parameters: &[(&str, &str)]| {
        let names: Vec<&str> = parameters.iter().map(|&(name, _)| name).collect();
        format!("{name}({})", names.join(", "))
    };
    let exports = exports();
    let mut calls: Vec<String> = exports
        .iter()
        .map(|it| call(it.name, &it.parameters))
        .collect();
    listed.iter_mut().for_each(|it| *it = it.trim_matches('`'));
    listed.sort();
    calls.sort();
    assert_eq!(listed, calls);
}

/// "for x86-64 and nothing else: an ELF object": the machine of each object in the archive.
#[test]
fn cpus() {
    let bytes = std::fs::read(archive()).expect("the archive");
    let objects = bytes.windows(20).filter(|it| it.starts_with(b"\x7fELF"));
    // Of 64 bits, little-endian, for machine 62.
    let machines = objects.map(|it| (it[4], it[5], it[18], it[19]));
    let machines: Vec<_> = machines.collect();
    assert_eq!(machines, [(2, 1, 62, 0)]);
    assert!(HOST.contains("for x86-64 and nothing else"));
}
