//! Reads a snapshot's text and keeps each file's name and bytes: plain Rust, for `scale.py` to compare with. It trusts
//! the text, where the program checks each rule.

use std::io::{BufRead, BufReader, Read};

/// One file of a snapshot.
struct File {
    name: Vec<u8>,
    modified: u64,
    bytes: Vec<u8>,
}

/// The next bytes, and the line feed after them.
fn run(input: &mut impl Read, count: usize) -> Vec<u8> {
    let mut bytes = vec![0; count];
    input.read_exact(&mut bytes).expect("a run");
    input.read_exact(&mut [0]).expect("its line feed");
    bytes
}

fn main() {
    let path = std::env::args().nth(1).expect("a snapshot");
    let mut input = BufReader::with_capacity(65_536, std::fs::File::open(path).expect("the file"));
    let mut line = String::new();
    input.read_line(&mut line).expect("the first line");
    let mut files = Vec::new();
    loop {
        line.clear();
        input.read_line(&mut line).expect("a line");
        let mut fields = line.trim_end().split(' ');
        if fields.next() != Some("file") {
            break;
        }
        let mut number = || fields.next().expect("a field").parse::<u64>().expect("a number");
        let (modified, name_len, len) = (number(), number() as usize, number() as usize);
        let name = run(&mut input, name_len);
        let bytes = run(&mut input, len);
        files.push(File { name, modified, bytes });
    }
    let sizes: usize = files.iter().map(|file| file.name.len() + file.bytes.len()).sum();
    let latest = files.iter().map(|file| file.modified).max();
    println!("{} files, {sizes} bytes, the latest of {latest:?}", files.len());
}
