// The use of Jellyspire in Rust: opens two flows, is refused a third, reports, and closes. examples/run builds and runs it with
// the crate in rust/.
use jellyspire::{agree, close, open, report, row, Buffers, Chip};

const CHIP: Chip = Chip { n: 8, s: 3, h: 1, p: 3 };

// Opens a flow and prints the answer.
fn open_flow(lent: &mut Buffers, flow: usize, words: usize, deadline: usize, path: &[u16]) {
    match open(CHIP, lent, flow, path, words, deadline) {
        Err(no) => println!("open {flow} refused {}", no as u64),
        Ok(a) => {
            let slots: Vec<String> = (0..64).filter(|s| a.slots >> s & 1 == 1).map(|s| s.to_string()).collect();
            assert_eq!(slots.len(), a.count);
            println!("open {flow} slots {} words {}", slots.join(" "), a.words);
        }
    }
}

fn main() {
    let (mut table, mut list) = ([0; 64 * 16], [0; 64 * 16]);
    let mut lent = Buffers { table: &mut table, list: &mut list };
    open_flow(&mut lent, 1, 5, 20, &[0, 1]);
    open_flow(&mut lent, 2, 6, 5, &[2, 1]);
    open_flow(&mut lent, 3, 5, 20, &[4, 4]);
    let cells: Vec<String> = row(CHIP, &lent, 1).iter().map(|cell| cell.to_string()).collect();
    println!("channel 1: {}", cells.join(" "));
    for _ in 0..2 {
        match close(CHIP, &mut lent, 1) {
            Ok(cells) => println!("close 1 number 0 cells {cells}"),
            Err(no) => println!("close 1 number {} cells 0", no as u64),
        }
    }
    let cells = report(CHIP, &lent).unwrap();
    println!("report free {} held {}", cells.free, cells.held);
    lent.table[3] = 7;
    println!("agree {}", agree(CHIP, &lent).map_or_else(|no| no as u64, |()| 0));
}
