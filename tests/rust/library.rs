//! Links the library into Rust and calls all of it. The structs are those of `include/krunvedo.h`.

const PLACES: usize = 16;
const AREA: usize = 20_000;
const TEXT: usize = 4096;

/// Document 01's own sheet: claims at 23, 29, 35, 41 and 47.
const FIRST: [u8; 53] = *b"NP\x02\x01TR\x01\0\0\x01MK\x02\0\0\0TG\0\0\0\x01\0\
    HS\x01\x01\x02\0HS\xff\0\0\0HS\0\x01\0\0HS\x02\x01\x02\0HS\x02\x02\x04\0";

#[repr(C)]
struct Lent<T> {
    data: *mut T,
    length: usize,
}

#[repr(C)]
struct Bytes {
    data: *const u8,
    length: usize,
}

#[repr(C)]
#[derive(Debug, PartialEq)]
struct Refused {
    number: u8,
    detail: usize,
}

#[repr(C)]
#[derive(Debug, PartialEq)]
struct Counted {
    refusal: Refused,
    places: usize,
    transitions: usize,
    claims: usize,
}

#[repr(C)]
#[derive(Debug, PartialEq)]
struct Weighted {
    refusal: Refused,
    taken: [u8; PLACES],
    put: [u8; PLACES],
}

#[repr(C)]
#[derive(Debug, PartialEq)]
struct Tokens {
    refusal: Refused,
    tokens: [u16; PLACES],
}

#[repr(C)]
#[derive(Debug, PartialEq)]
struct Aim {
    refusal: Refused,
    kind: u8,
    tokens: [u16; PLACES],
}

#[repr(C)]
#[derive(Debug, PartialEq)]
struct Space {
    refusal: Refused,
    coefficients: [i8; PLACES],
    constant: i16,
}

#[repr(C)]
#[derive(Debug, PartialEq)]
struct Record {
    refusal: Refused,
    offset: usize,
    length: usize,
}

#[repr(C)]
#[derive(Debug, PartialEq)]
struct Paired {
    refusal: Refused,
    answer: u8,
    marking: [u16; PLACES],
}

#[repr(C)]
#[derive(Debug, PartialEq)]
struct Judged {
    refusal: Refused,
    answer: u8,
    transition: usize,
    marking: [u16; PLACES],
}

#[repr(C)]
#[derive(Debug, PartialEq)]
struct Twinned {
    refusal: Refused,
    claim: usize,
}

#[repr(C)]
struct List {
    data: *const usize,
    length: usize,
}

#[repr(C)]
#[derive(Debug, PartialEq)]
struct Fired {
    refusal: Refused,
    position: usize,
}

#[repr(C)]
#[derive(Debug, PartialEq)]
struct Written {
    number: u8,
    value: usize,
}

#[link(name = "krunvedo", kind = "static")]
extern "C" {
    fn krunvedo_read(sheet: Bytes) -> Counted;
    fn krunvedo_weights(sheet: Bytes, t: usize) -> Weighted;
    fn krunvedo_start(sheet: Bytes) -> Tokens;
    fn krunvedo_target(sheet: Bytes) -> Aim;
    fn krunvedo_half_space(sheet: Bytes, i: usize) -> Space;
    fn krunvedo_reduced(sheet: Bytes, i: usize) -> Space;
    fn krunvedo_claim_check(sheet: Bytes, i: usize) -> Refused;
    fn krunvedo_claim_record(sheet: Bytes, i: usize) -> Record;
    fn krunvedo_pair(sheet: Bytes, i: usize, marks: Lent<u8>, queue: Lent<u16>, t: usize) -> Paired;
    fn krunvedo_verdict(sheet: Bytes, i: usize, marks: Lent<u8>, queue: Lent<u16>) -> Judged;
    fn krunvedo_twin(sheet: Bytes, i: usize) -> Twinned;
    fn krunvedo_listing(sheet: Bytes, marks: Lent<u8>, queue: Lent<u16>, text: Lent<u8>) -> Written;
    fn krunvedo_refusal_text(number: u8, detail: usize, text: Lent<u8>) -> Written;
    fn krunvedo_begin(sheet: Bytes) -> Tokens;
    fn krunvedo_step(tokens: *mut u16, sheet: Bytes, t: usize) -> Refused;
    fn krunvedo_fire_list(tokens: *mut u16, sheet: Bytes, list: List) -> Fired;
}

fn bytes(sheet: &[u8]) -> Bytes {
    Bytes { data: sheet.as_ptr(), length: sheet.len() }
}

fn lent<T>(area: &mut [T]) -> Lent<T> {
    Lent { data: area.as_mut_ptr(), length: area.len() }
}

fn refused(number: u8, detail: usize) -> Refused {
    Refused { number, detail }
}

fn row<T: Copy + Default>(first: &[T]) -> [T; PLACES] {
    let mut row = [T::default(); PLACES];
    row[..first.len()].copy_from_slice(first);
    row
}

fn pair(sheet: &[u8], i: usize, t: usize, marks: &mut [u8], queue: &mut [u16]) -> Paired {
    unsafe { krunvedo_pair(bytes(sheet), i, lent(marks), lent(queue), t) }
}

fn verdict(sheet: &[u8], i: usize, marks: &mut [u8], queue: &mut [u16]) -> Judged {
    unsafe { krunvedo_verdict(bytes(sheet), i, lent(marks), lent(queue)) }
}

fn listing(sheet: &[u8], marks: &mut [u8], queue: &mut [u16], text: &mut [u8]) -> Written {
    unsafe { krunvedo_listing(bytes(sheet), lent(marks), lent(queue), lent(text)) }
}

fn refusal_text(number: u8, detail: usize, text: &mut [u8]) -> Written {
    unsafe { krunvedo_refusal_text(number, detail, lent(text)) }
}

fn written(number: u8, value: usize) -> Written {
    Written { number, value }
}

/// An area of sevens with the text at its start.
fn holding(text: &[u8]) -> [u8; TEXT] {
    let mut area = [7; TEXT];
    area[..text.len()].copy_from_slice(text);
    area
}

fn step(tokens: &mut [u16; PLACES], sheet: &[u8], t: usize) -> Refused {
    unsafe { krunvedo_step(tokens.as_mut_ptr(), bytes(sheet), t) }
}

fn fire_list(tokens: &mut [u16; PLACES], sheet: &[u8], list: &[usize]) -> Fired {
    unsafe { krunvedo_fire_list(tokens.as_mut_ptr(), bytes(sheet), List { data: list.as_ptr(), length: list.len() }) }
}

fn fired(number: u8, detail: usize, position: usize) -> Fired {
    Fired { refusal: refused(number, detail), position }
}

#[test]
fn a_sheet_and_what_it_holds() {
    unsafe {
        assert_eq!(krunvedo_read(bytes(&FIRST)), Counted { refusal: refused(0, 0), places: 2, transitions: 1, claims: 5 });
        let weights = Weighted { refusal: refused(0, 0), taken: row(&[1]), put: row(&[0, 1]) };
        assert_eq!(krunvedo_weights(bytes(&FIRST), 1), weights);
        assert_eq!(krunvedo_start(bytes(&FIRST)), Tokens { refusal: refused(0, 0), tokens: row(&[2]) });
        assert_eq!(krunvedo_target(bytes(&FIRST)), Aim { refusal: refused(0, 0), kind: 0, tokens: row(&[0, 1]) });
        let negative = Space { refusal: refused(0, 0), coefficients: row(&[-1]), constant: 0 };
        assert_eq!(krunvedo_half_space(bytes(&FIRST), 2), negative);
        let reduced = Space { refusal: refused(0, 0), coefficients: row(&[1, 1]), constant: 2 };
        assert_eq!(krunvedo_reduced(bytes(&FIRST), 5), reduced);
        assert_eq!(krunvedo_claim_check(bytes(&FIRST), 5), refused(0, 0));
        assert_eq!(krunvedo_claim_record(bytes(&FIRST), 5), Record { refusal: refused(0, 0), offset: 47, length: 6 });
        assert_eq!(krunvedo_twin(bytes(&FIRST), 5), Twinned { refusal: refused(0, 0), claim: 1 });
    }
}

#[test]
fn refusals() {
    unsafe {
        assert_eq!(krunvedo_read(bytes(&[])).refusal, refused(1, 0));
        assert_eq!(krunvedo_read(bytes(&FIRST[..23])).refusal, refused(9, 23));
        assert_eq!(krunvedo_start(bytes(&FIRST[..22])).refusal, refused(1, 16));
        let mut zero_claim = FIRST;
        zero_claim[31] = 0; // the other coefficient of claim 2 is 0 already
        assert_eq!(krunvedo_read(bytes(&zero_claim)).refusal, refused(18, 29));
        assert_eq!(krunvedo_half_space(bytes(&zero_claim), 1).refusal, refused(18, 29));
        assert_eq!(krunvedo_weights(bytes(&FIRST), usize::MAX).refusal, refused(12, usize::MAX));
        assert_eq!(krunvedo_claim_check(bytes(&FIRST), 0), refused(11, 0));
        assert_eq!(krunvedo_claim_record(bytes(&FIRST), 6), Record { refusal: refused(11, 6), offset: 0, length: 0 });
        assert_eq!(krunvedo_twin(bytes(&FIRST), 6), Twinned { refusal: refused(11, 6), claim: 0 });
    }
}

/// The areas are longer than judging needs, and hold sevens: the first 20,000 are zero afterwards.
#[test]
fn judging() {
    let (mut marks, mut queue) = ([7u8; AREA + 1], [7u16; AREA + 1]);
    let broken = Paired { refusal: refused(0, 0), answer: 2, marking: row(&[1]) };
    assert_eq!(pair(&FIRST, 4, 1, &mut marks, &mut queue), broken);
    let (mut zeros, mut more_zeros) = ([0u8; AREA + 1], [0u16; AREA + 1]);
    (zeros[AREA], more_zeros[AREA]) = (7, 7);
    assert!(marks == zeros && queue == more_zeros);
    for (i, answer, transition, first) in [(1, 4, 0, 0), (2, 1, 0, 0), (3, 2, 0, 0), (4, 3, 1, 1), (5, 4, 0, 0)] {
        let expected = Judged { refusal: refused(0, 0), answer, transition, marking: row(&[first]) };
        assert_eq!(verdict(&FIRST, i, &mut marks, &mut queue), expected);
    }
}

#[test]
fn a_refusal_leaves_the_areas() {
    let (mut marks, mut queue) = ([7u8; AREA], [7u16; AREA - 1]);
    assert_eq!(pair(&FIRST, 4, 1, &mut marks, &mut queue).refusal, refused(13, 0));
    assert_eq!(verdict(&FIRST, 4, &mut marks, &mut queue).refusal, refused(13, 0));
    assert_eq!(pair(&FIRST, 4, 2, &mut marks, &mut queue).refusal, refused(12, 2));
    assert!(marks == [7; AREA] && queue == [7; AREA - 1]);
}

#[test]
fn a_listing() {
    let lines = b"places 2 transitions 1 claims 5\nclaim 1 proof\nclaim 2 start-outside\nclaim 3 target-inside\n\
        claim 4 broken 1 1 0\nclaim 5 proof twin 1\n";
    let (mut marks, mut queue, mut text) = ([7u8; AREA], [7u16; AREA], [7u8; TEXT]);
    assert_eq!(listing(&FIRST, &mut marks, &mut queue, &mut text), written(0, lines.len()));
    assert!(text == holding(lines) && marks == [0; AREA] && queue == [0; AREA]);
    assert_eq!(refusal_text(1, 47, &mut text), written(0, 16));
    assert!(text[..16] == *b"refused 1 at 47\n" && text[16..lines.len()] == lines[16..]);
}

#[test]
fn a_refusal_leaves_the_text() {
    let (mut marks, mut queue, mut text) = ([7u8; AREA], [7u16; AREA], [7u8; TEXT]);
    assert_eq!(listing(&FIRST[..52], &mut marks, &mut queue, &mut text), written(1, 47));
    assert_eq!(listing(&FIRST, &mut marks, &mut queue[1..], &mut text), written(13, 0));
    assert_eq!(listing(&FIRST, &mut marks, &mut queue, &mut text[1..]), written(19, TEXT));
    assert_eq!(refusal_text(1, 47, &mut text[1..]), written(19, TEXT));
    assert!(text == [7; TEXT] && marks == [7; AREA] && queue == [7; AREA]);
}

#[test]
fn a_walk() {
    let begun = unsafe { krunvedo_begin(bytes(&FIRST)) };
    assert_eq!(begun, Tokens { refusal: refused(0, 0), tokens: row(&[2]) });
    let mut tokens = begun.tokens;
    for (number, detail, after) in [(0, 0, [1, 1]), (0, 0, [0, 2]), (15, 1, [0, 2])] {
        assert_eq!(step(&mut tokens, &FIRST, 1), refused(number, detail));
        assert_eq!(tokens, row(&after));
    }
    tokens = [65_535; PLACES];
    assert_eq!(step(&mut tokens, &FIRST, 1), refused(16, 2));
    assert_eq!(tokens, [65_535; PLACES]);
}

#[test]
fn a_list() {
    let mut tokens = row(&[2]);
    assert_eq!(fire_list(&mut tokens, &FIRST, &[]), fired(0, 0, 0));
    assert_eq!(fire_list(&mut tokens, &FIRST, &[1, 1, 1]), fired(15, 1, 3));
    assert_eq!(fire_list(&mut tokens, &FIRST, &[1, usize::MAX]), fired(12, usize::MAX, 2));
    assert_eq!(fire_list(&mut tokens, &FIRST, &[1; 65]), fired(17, 65, 0));
    assert_eq!(fire_list(&mut tokens, &FIRST[..23], &[1; 65]), fired(9, 23, 0));
    assert_eq!(tokens, row(&[2]));
    assert_eq!(fire_list(&mut tokens, &FIRST, &[1, 1]), fired(0, 0, 0));
    assert_eq!(tokens, row(&[0, 2]));
}
