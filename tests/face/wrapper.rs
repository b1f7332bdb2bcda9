// The crate in rust/: what its slices and enums make of the calls. tests/face/run builds and runs it; a wrong answer panics.
use jellyspire::*;

const CHIP: Chip = Chip { n: 8, s: 3, h: 1, p: 3 };

// A call on a fresh table and list with flow 1 open: slots 0 and 1 on channels 0 and 1.
fn with<T>(call: impl Fn(&mut Buffers) -> T) -> T {
    let (mut table, mut list) = ([0; 64 * 4], [0; 64 * 4]);
    let mut lent = Buffers { table: &mut table, list: &mut list };
    assert_eq!(open(CHIP, &mut lent, 1, &[0, 1], 5, 20), Ok(Selection { slots: 3, count: 2, words: 5 }));
    call(&mut lent)
}

// An opening that is refused, and that no byte changes.
fn refused(flow: usize, path: &[u16], words: usize, deadline: usize) -> Option<Refusal> {
    with(|lent| {
        let before = (lent.table.to_vec(), lent.list.to_vec());
        let answer = open(CHIP, lent, flow, path, words, deadline);
        assert_eq!(before, (lent.table.to_vec(), lent.list.to_vec()));
        answer.err()
    })
}

fn main() {
    use Refusal::*;
    let mut nothing = Buffers::default();
    assert_eq!(open(Chip::default(), &mut nothing, 1, &[0], 1, 2), Err(BadWheel));
    assert_eq!(open(Chip { s: 65_539, ..CHIP }, &mut nothing, 1, &[0], 1, 2), Err(BadWheel));
    assert_eq!(open(CHIP, &mut nothing, 1, &[0], 1, 2), Err(BadTable));
    assert_eq!(close(CHIP, &mut Buffers { table: &mut [0; 64], ..Default::default() }, 1), Err(BadList));
    assert_eq!(with(|lent| (lent.table[0] = 2, agree(CHIP, lent)).1), Err(Disagree));
    assert_eq!(refused(2, &[], 5, 20), Some(PathLength));
    assert_eq!(refused(2, &[0; 17], 5, 20), Some(PathLength));
    assert_eq!(refused(2, &[4], 5, 20), Some(NoChannel));
    assert_eq!(refused(2, &[3, 3], 5, 20), Some(ChannelTwice));
    assert_eq!(refused(5, &[3], 5, 20), Some(NoFlow));
    assert_eq!(refused(1, &[3], 5, 20), Some(AlreadyOpen));
    assert_eq!(with(|lent| close(CHIP, lent, 2)), Err(NotOpen));
    assert_eq!(refused(2, &[3], 0, 20), Some(NoWords));
    assert_eq!(refused(2, &[3], 5, 1), Some(NoTime));
    assert_eq!(refused(2, &[3], 65_536, 20), Some(TooMuch));
    assert_eq!(refused(2, &[0], 2, 2), Some(TooFar));
    assert_eq!(select(CHIP, 1 << 8, 1, 8), Err(SlotBeyond));

    // P6 of the bench examples: free 0, 2, 4, 5 and 6, 8 words
    assert_eq!(select(CHIP, 0b111_0101, 8, 8), Ok(Selection { slots: 0b111_0000, count: 3, words: 8 }));
    assert_eq!(with(|lent| report(CHIP, lent)), Ok(Cells { free: 28, held: 4 }));
    assert_eq!(with(|lent| agree(CHIP, lent)), Ok(()));
    assert_eq!(with(|lent| close(CHIP, lent, 1)), Ok(4));
    assert_eq!(with(|lent| row(CHIP, lent, 1).to_vec()), [0, 1, 1, 0, 0, 0, 0, 0]);
    assert_eq!(with(|lent| row(CHIP, lent, 3).len()), 8);
    assert!(with(|lent| row(CHIP, lent, 4).is_empty()));
    assert!(row(CHIP, &nothing, 0).is_empty());
    println!("wrapper: every refusal and every answer as expected");
}
