//! Document 01's rows by the four calls of the library, and what each leaves in the area.
use wavgrut::{both, read, stack_usage, types, Position, Status, Verdict};

type Call = fn(&[u8], &mut [u8]) -> Verdict;

const CALLS: [Call; 4] = [read, stack_usage, types, both];

/// Document 01's listing: LdTrue, Pop, Ret.
const LISTING: [u8; 22] = [1, 0x11, 0, 0x19, 0, 0, 0, 0, 0, 0, 0, 0x1a, 0, 0, 2, 0, 0x1b, 3, 0, 0x0c, 0, 1];

/// A call's line with an area of that many bytes, which is full of junk before, and must be zeros afterwards.
fn line(call: Call, unit: &[u8], area: usize) -> String {
    let mut area = vec![0xa5; area];
    let verdict = call(unit, &mut area);
    assert!(area.iter().all(|&byte| byte == 0), "{verdict}: the area is not cleared");
    verdict.to_string()
}

/// The lines of the four calls, in their order.
fn lines(unit: &[u8], area: usize) -> [String; 4] {
    CALLS.map(|call| line(call, unit, area))
}

/// The listing with other code in its one block.
fn code(instructions: &[u8], count: u8) -> Vec<u8> {
    let mut unit = LISTING[..19].to_vec();
    unit[14] = count - 1;
    unit[17] = count;
    unit.extend(instructions);
    unit
}

#[test]
fn the_listing_is_accepted() {
    assert_eq!(lines(&LISTING, 16384), ["0 n 0"; 4]);
    let accepted = Verdict { status: Status::Accepted, position: Position::None };
    assert_eq!(both(&LISTING, &mut [0; 16384]), accepted);
}

#[test]
fn the_passes_differ() {
    let pop = code(&[0], 1);
    assert_eq!(lines(&pop, 16384), ["0 n 0", "14 k 0", "10 i 0", "14 k 0"]);
    let ld_true = code(&[0x0c], 1);
    assert_eq!(lines(&ld_true, 16384), ["0 n 0", "15 k 0", "0 n 0", "15 k 0"]);
    // LdTrue, LdU8 0, Eq, Pop
    let eq = code(&[0x0c, 5, 0, 0x2f, 0], 4);
    assert_eq!(lines(&eq, 16384), ["0 n 0", "0 n 0", "46 i 2", "46 i 2"]);
}

#[test]
fn a_short_area_has_no_room() {
    assert_eq!(lines(&LISTING, 3), ["0 n 0"; 4]);
    assert_eq!(lines(&LISTING, 2), ["0 n 0", "0 n 0", "12 i 0", "12 i 0"]);
    assert_eq!(lines(&LISTING, 0), ["0 n 0", "0 n 0", "12 i 0", "12 i 0"]);
}

#[test]
fn a_long_area_is_refused_and_untouched() {
    assert_eq!(lines(&LISTING, wavgrut::LONGEST_AREA), ["0 n 0"; 4]);
    for call in CALLS {
        let mut area = vec![0xa5; 65_536];
        let refused = Verdict { status: Status::Area, position: Position::Byte(0) };
        assert_eq!(call(&LISTING, &mut area), refused);
        assert_eq!(call(&[], &mut area), refused);
        assert!(area.iter().all(|&byte| byte == 0xa5));
    }
}

#[test]
fn the_rows_of_reading() {
    assert_eq!(lines(&[], 16384), ["2 b 0"; 4]);
    assert_eq!(lines(&[], 0), ["2 b 0"; 4]);
    assert_eq!(lines(&[1; 32_769], 16384), ["1 b 0"; 4]);
    assert_eq!(lines(&[1], 16384), ["2 b 1"; 4]);
    assert_eq!(lines(&[5], 16384), ["3 b 0"; 4]);
    assert_eq!(lines(&[1, 0x1b], 16384), ["4 b 1"; 4]);
    assert_eq!(lines(&[1, 0x10, 0x10], 16384), ["5 b 2"; 4]);
    let deep = [&[1, 0x11, 1][..], &[7; 32], &[1]].concat();
    assert_eq!(lines(&deep, 16384), ["6 b 35"; 4]);
    let mut past = LISTING;
    past[14] = 3;
    assert_eq!(lines(&past, 16384), ["7 b 11"; 4]);
    let trailing = [&LISTING[..], &[0]].concat();
    assert_eq!(lines(&trailing, 16384), ["8 b 22"; 4]);
}

#[test]
fn a_unit_of_32768_bytes_is_read() {
    let mut unit = LISTING.to_vec();
    unit.splice(1..1, [0x11, 0].repeat((32_768 - LISTING.len()) / 2));
    assert_eq!(unit.len(), wavgrut::LONGEST_UNIT);
    assert_eq!(lines(&unit, 16384), ["0 n 0"; 4]);
}

#[test]
fn threads_call_at_once() {
    let threads: Vec<_> = (0..8)
        .map(|_| std::thread::spawn(|| (0..100).for_each(|_| assert_eq!(lines(&LISTING, 64), ["0 n 0"; 4]))))
        .collect();
    for thread in threads {
        thread.join().expect("no call failed");
    }
}

/// A type inside 31 structs of one type parameter each: as deep as a unit may have it, where it is a leaf.
fn nested(inner: &[u8]) -> Vec<u8> {
    [&[9, 0, 0, 1].repeat(31), inner].concat()
}

#[test]
fn the_deepest_types_fit_in_the_stack_that_is_asked_for() {
    let unit = [
        &[1, 0x10, 15, 1, 0][..],
        &[0x11, 0],
        // what f<T> returns, and what T is: 63 levels together
        &[&[0x11, 1][..], &nested(&[0x0c, 0, 0])].concat(),
        &[&[0x11, 1][..], &nested(&[2])].concat(),
        &[0x12, 0, 0, 1, 0],
        &[0x13, 0, 0, 2, 0],
        &[0x19, 0, 0, 0, 0, 0, 0, 0],
        &[0x1a, 0, 0, 1, 0],
        // CallGeneric, Pop
        &[0x1b, 2, 0, 0x12, 0, 0, 0],
    ]
    .concat();
    let calls = move || assert_eq!(lines(&unit, 16384), ["0 n 0"; 4]);
    let thread = std::thread::Builder::new().stack_size(256 * 1024).spawn(calls).expect("a thread");
    thread.join().expect("no call failed");
}

extern "C" {
    fn wavgrut_both(unit: *const u8, unit_len: usize, area: *mut u8, area_len: usize) -> u64;
}

#[test]
fn a_pointer_to_nothing_may_be_null() {
    // SAFETY: include/wavgrut.h: a pointer whose length is 0 is never followed.
    let verdict = unsafe { wavgrut_both(std::ptr::null(), 0, std::ptr::null_mut(), 0) };
    assert_eq!(verdict, 2 | (u64::from(b'b') << 8), "2 b 0: the unit ends before its head");
}
