// The stack that a run takes: the part below the caller is painted, and what is no longer paint after a run was used.
use crate::cases::Case;
use crate::sides::ROOM;
use crate::texts::EVENTS_BYTES;
use std::hint::black_box;

const PAINT: u8 = 0xa5;
const PAINTED: usize = 1 << 20;

// Paints the stack below the caller and gives the lowest address painted.
#[inline(never)]
fn paint() -> usize {
    let mut bytes = [0u8; PAINTED];
    black_box(&mut bytes).fill(PAINT);
    black_box(&bytes).as_ptr() as usize
}

// How far below this frame a run has written, and the refusal.
#[inline(never)]
fn stack_of(case: &Case, buffer: &mut [u8]) -> (usize, u64) {
    let frame = 0u8;
    let top = black_box(&frame) as *const u8 as usize;
    let low = paint();
    let answer = black_box(case.sides.answer(&mut Default::default(), &case.texts[0], buffer));
    let painted = |address: &usize| unsafe { (*address as *const u8).read_volatile() == PAINT };
    (top - (low..top).find(|address| !painted(address)).unwrap_or(top), answer.refusal)
}

fn print_stacks() {
    let mut spoilt = Case::of_length(EVENTS_BYTES);
    spoilt.sides.spoil();
    let cases = [
        ("refused with 6", spoilt, 6),
        ("1,024 bytes of events", Case::of_length(1_024), 0),
        ("8,192 bytes", Case::of_length(8_192), 0),
        ("65,536 bytes", Case::of_length(EVENTS_BYTES), 0),
    ];
    let mut buffer = vec![0; ROOM];
    for (name, case, refusal) in &cases {
        let (stack, refused) = stack_of(case, &mut buffer);
        assert_eq!(refused, *refusal, "{name}");
        println!("stack of a run, {name}: {stack} bytes");
    }
}

// In a thread of its own, whose stack holds the paint whatever the caller has used.
pub fn measure() {
    let thread = std::thread::Builder::new().stack_size(4 * PAINTED).spawn(print_stacks);
    thread.expect("a thread").join().expect("the runs");
}
