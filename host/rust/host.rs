//! A host in Rust: a record written and read back, what a block at fault gives, what the table finds, and every step undone.
mod ts11;

use ts11::{Advanced, BadBlock, Buffers, Fault, Place, Refused, Register, State, Switch};

const PACKET: usize = 0x100;
const MESSAGE: usize = 0x200;
const DATA: usize = 0x400;
const BACK: usize = 0x600;

const AT_ONLINE: usize = 32;
const AT_LOCKED: usize = 36;
const AT_OBJECTS: usize = 112;

const ACK: u16 = 0x8000;
const CVC: u16 = 0x4000;
const READ_PREVIOUS: u16 = 0x0101;
const WRITE_CHARACTERISTICS: u16 = 0x0004;
const WRITE: u16 = 0x0005;
const WRITE_MARK: u16 = 0x0009;

fn words(words: &[u16]) -> Vec<u8> {
    words.iter().flat_map(|w| w.to_le_bytes()).collect()
}

/// A command that waits.
fn give(state: &mut State, b: &mut Buffers, header: u16, pointer: usize, count: u16) {
    state.host_store(b, PACKET, &words(&[header | ACK, pointer as u16, 0, count])).unwrap();
    state.write_tsdb(b, PACKET as u16).unwrap();
}

fn command(state: &mut State, b: &mut Buffers, header: u16, pointer: usize, count: u16) -> Advanced {
    give(state, b, header, pointer, count);
    state.advance(b).unwrap()
}

/// Refusal 7 for block 0.
fn bad(fault: Fault) -> Refused {
    Refused { number: 7, block: Some(BadBlock { number: 0, fault }) }
}

/// One byte of block 0 is another: a mount and the command that waits are refused for it, and nothing changes.
fn expect_refused(state: &mut State, b: &mut Buffers, at: usize, byte: u8, fault: Fault) {
    let (before, right, mut other) = (*state, b.reel[at], State::NONE);
    b.reel[at] = byte;
    assert_eq!(other.mount(b, 1, true, false), Err(bad(fault)));
    assert_eq!(state.advance(b), Err(bad(fault)));
    assert_eq!((*state, other), (before, State::NONE));
    b.reel[at] = right;
}

/// A mark and a record behind the one that stands there: each has its place, and the look-ups find them.
fn expect_found(state: &mut State, b: &mut Buffers) {
    command(state, b, WRITE_MARK, 0, 0);
    command(state, b, WRITE, DATA, 505);
    assert_eq!(state.number(AT_OBJECTS), 3);
    assert_eq!(Place::nth(b.table, 2), Some(Place { block: 2, marks: 1 }));
    assert_eq!(state.find_file(b.table, 1), Ok(Some(2)));
    assert_eq!(state.find_file(b.table, 2), Ok(None));
    assert_eq!(state.find_block(b.table, 3), Ok(Some(2)));
    assert_eq!(state.find_block(b.table, 4), Ok(None));
    assert_eq!(state.find_block(&b.table[..23], 3), Err(11));
    for _ in 0..6 {
        state.step_back(b).unwrap();
    }
    assert_eq!(state.find_file(b.table, 1), Ok(None));
}

fn main() {
    let (mut memory, mut reel) = (vec![0; 8192], vec![0; 256 * 512]);
    let (mut table, mut journal) = (vec![0; 256 * 8], vec![0; 65536]);
    let mut b = Buffers { memory: &mut memory, reel: &mut reel, table: &mut table, journal: &mut journal };
    let mut state = State::NONE;
    assert_eq!(state.read_register(Register::Tssr), Err(1));
    assert_eq!(state.mount(&mut b, 1, true, false), Err(bad(Fault::Kind)));
    assert_eq!(state.mount(&mut b, 257, true, false), Err(Refused { number: 3, block: None }));
    assert_eq!(state, State::NONE);
    state.mount(&mut b, 0, true, false).unwrap();
    assert_eq!(state.read_register(Register::Tssr), Ok(0x0480));
    let (first, memory_then, reel_then, table_then) = (state, b.memory.to_vec(), b.reel.to_vec(), b.table.to_vec());

    state.host_store(&mut b, DATA, &words(&[MESSAGE as u16, 0, 14, 0])).unwrap();
    command(&mut state, &mut b, WRITE_CHARACTERISTICS | CVC, DATA, 8);
    state.host_store(&mut b, DATA, b"MONTH END").unwrap();
    command(&mut state, &mut b, WRITE, DATA, 9);
    expect_found(&mut state, &mut b);
    give(&mut state, &mut b, READ_PREVIOUS, BACK, 10);
    expect_refused(&mut state, &mut b, 0, 4, Fault::Kind);
    expect_refused(&mut state, &mut b, 2, 0, Fault::Length);
    expect_refused(&mut state, &mut b, 4, 1, Fault::Index);
    expect_refused(&mut state, &mut b, 509, 1, Fault::Padding);
    expect_refused(&mut state, &mut b, 6, b'm', Fault::Check);
    state.advance(&mut b).unwrap();
    assert_eq!(&b.memory[BACK..BACK + 10], b"\0MONTH END");
    assert_eq!(state.read_register(Register::Tssr), Ok(0x8084));
    assert_eq!(state.read_register(Register::Tsba), Ok(PACKET as u16));
    state.operate(&mut b, Switch::WriteLock, true).unwrap();
    state.operate(&mut b, Switch::Online, false).unwrap();
    assert_eq!((state.number(AT_ONLINE), state.number(AT_LOCKED)), (0, 1));
    state.write_tssr(&mut b, 0).unwrap();
    assert_eq!(state.advance(&mut b), Ok(Advanced { stepped: false, interrupt: false }));

    let mut steps = 0;
    while state.step_back(&mut b).is_ok() {
        steps += 1;
    }
    assert_eq!(state.step_back(&mut b), Err(6));
    assert!(state == first && b.memory[..] == memory_then[..]);
    assert!(b.reel[..] == reel_then[..] && b.table[..] == table_then[..]);
    println!("Rust: 5 faults told, {steps} steps undone, and state, memory, reel and table are what they were");
}
