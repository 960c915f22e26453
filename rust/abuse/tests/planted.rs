//! Entries that err in one way each: the run finds every one of them, and finds nothing in the library.

use abuse::entries::Entries;
use abuse::fuzz::{self, Plan};
use abuse::generate::Maker;
use abuse::shrink;
use dervisclo::c::{
    dervisclo_check_document, dervisclo_check_table, dervisclo_print_document,
    dervisclo_print_literal, dervisclo_read_literal,
};

const LIBRARY: Entries = Entries::LIBRARY;

/// Enough for each of the errors below.
const INPUTS: u64 = 1_000;

fn plan(inputs: u64) -> Plan {
    Plan {
        seed: 7,
        inputs,
        workers: 1,
        is_heap: false,
    }
}

/// The run fails; the first input that fails is found alone too, and a small one from it, which has this fault.
fn is_found(entries: Entries, says: &str) {
    let tally = fuzz::run(&plan(INPUTS), entries);
    assert!(tally.failed > 0, "{says}: not found");
    let mut maker = Maker::new(7, false);
    let failing = (0..INPUTS)
        .map(|number| maker.input(number).0)
        .find(|input| shrink::fault(&entries, input).is_some());
    let (smallest, fault) = shrink::smallest(&entries, failing.unwrap());
    assert!(fault.contains(says), "{fault}, not {says}\n{smallest}");
    assert!(smallest.size() <= 100, "{smallest}");
}

const CRASH: &str = "Signal(11)";

#[test]
fn nothing_is_found_in_the_library() {
    for is_heap in [false, true] {
        let plan = Plan {
            is_heap,
            ..plan(25_000)
        };
        let tally = fuzz::run(&plan, LIBRARY);
        assert_eq!(tally.failed, 0);
        // each input, each answer that can be had, and the memory far from what was lent
        assert_eq!(tally.passed, 25_000 + 32 + 1);
    }
}

#[test]
fn an_input_is_given_by_seed_and_number() {
    let (mut one, mut other) = (Maker::new(3, false), Maker::new(3, false));
    for number in (0..300).rev() {
        let _ = other.input(number);
    }
    for number in 0..300 {
        assert!(one.input(number) == other.input(number), "{number}");
    }
    let differ = |number: &u64| one.input(*number) != Maker::new(4, false).input(*number);
    assert!((0..50).filter(differ).count() > 40);
}

macro_rules! planted {
    ($test:ident, $field:ident, $says:expr, ($($name:ident: $type:ty),*), $body:block) => {
        #[test]
        fn $test() {
            unsafe extern "C" fn planted($($name: $type),*) -> u32 $body
            is_found(Entries { $field: planted, ..LIBRARY }, $says);
        }
    };
}

planted!(
    a_byte_past_the_output_is_written,
    print_literal,
    CRASH,
    (v: *const u8, n: usize, d: u32, b: u32, p: *const u8, q: usize, l: u64, o: *mut u8, r: usize, at: *mut u64),
    {
        let number = dervisclo_print_literal(v, n, d, b, p, q, l, o, r, at);
        if number == 0 {
            o.add(r).write(b'!');
        }
        number
    }
);

planted!(
    a_byte_past_the_text_is_written,
    print_literal,
    "bytes of output",
    (v: *const u8, n: usize, d: u32, b: u32, p: *const u8, q: usize, l: u64, o: *mut u8, r: usize, at: *mut u64),
    {
        let number = dervisclo_print_literal(v, n, d, b, p, q, l, o, r, at);
        if number == 0 && (at.read() as usize) < r {
            o.add(at.read() as usize).write(0);
        }
        number
    }
);

planted!(
    a_byte_before_the_value_is_read,
    print_literal,
    CRASH,
    (v: *const u8, n: usize, d: u32, b: u32, p: *const u8, q: usize, l: u64, o: *mut u8, r: usize, at: *mut u64),
    {
        if n > 0 {
            v.sub(1).read_volatile();
        }
        dervisclo_print_literal(v, n, d, b, p, q, l, o, r, at)
    }
);

// The library's own access, and not this function's.
planted!(
    the_library_reads_a_byte_too_many,
    print_literal,
    CRASH,
    (v: *const u8, n: usize, d: u32, b: u32, p: *const u8, q: usize, l: u64, o: *mut u8, r: usize, at: *mut u64),
    {
        if n > 0 {
            let mut length = 0;
            dervisclo_print_literal(v, n + 1, 0, 0, p, 0, 0, o, 0, &mut length);
        }
        dervisclo_print_literal(v, n, d, b, p, q, l, o, r, at)
    }
);

planted!(
    a_byte_past_the_text_is_read,
    read_literal,
    CRASH,
    (t: *const u8, n: usize, o: *mut u8, r: usize, at: *mut u64, form: *mut u32),
    {
        if !t.is_null() {
            t.add(n).read_volatile();
        }
        dervisclo_read_literal(t, n, o, r, at, form)
    }
);

planted!(
    the_form_is_another,
    read_literal,
    "form: 1",
    (t: *const u8, n: usize, o: *mut u8, r: usize, at: *mut u64, form: *mut u32),
    {
        let number = dervisclo_read_literal(t, n, o, r, at, form);
        if number == 0 {
            form.write(1);
        }
        number
    }
);

planted!(
    a_number_beside_the_length_is_written,
    read_literal,
    "bytes of length or beside it",
    (t: *const u8, n: usize, o: *mut u8, r: usize, at: *mut u64, form: *mut u32),
    {
        // the address is not that of a number at a page's end
        if !(at as usize + 8).is_multiple_of(4096) {
            at.add(1).write(0);
        }
        dervisclo_read_literal(t, n, o, r, at, form)
    }
);

planted!(
    the_place_is_off_by_one,
    check_table,
    "place: ",
    (w: *const u32, m: usize, p: *const u8, n: usize, place: *mut u64),
    {
        let number = dervisclo_check_table(w, m, p, n, place);
        if number == 7 {
            place.write(place.read() + 1);
        }
        number
    }
);

planted!(
    a_byte_of_the_pool_is_changed,
    check_document,
    "bytes of pool",
    (b: u32, f: *const u8, q: usize, l: u64, w: *const u32, m: usize, p: *const u8, n: usize, place: *mut u64),
    {
        let number = dervisclo_check_document(b, f, q, l, w, m, p, n, place);
        if number == 0 && n > 0 {
            let last = p.add(n - 1).cast_mut();
            last.write(!last.read());
        }
        number
    }
);

planted!(
    a_word_past_the_table_is_read,
    check_table,
    CRASH,
    (w: *const u32, m: usize, p: *const u8, n: usize, place: *mut u64),
    {
        if m >= 5 {
            w.add(m).read_volatile();
        }
        dervisclo_check_table(w, m, p, n, place)
    }
);

planted!(
    a_refusal_changes_a_byte,
    print_document,
    "bytes of output",
    (b: u32, f: *const u8, q: usize, l: u64, w: *const u32, m: usize, p: *const u8, n: usize, o: *mut u8, r: usize,
     place: *mut u64, at: *mut u64),
    {
        let number = dervisclo_print_document(b, f, q, l, w, m, p, n, o, r, place, at);
        if number == 8 && r > 0 {
            o.write(0);
        }
        number
    }
);

planted!(
    the_needed_length_is_off_by_one,
    print_document,
    "length: ",
    (b: u32, f: *const u8, q: usize, l: u64, w: *const u32, m: usize, p: *const u8, n: usize, o: *mut u8, r: usize,
     place: *mut u64, at: *mut u64),
    {
        let number = dervisclo_print_document(b, f, q, l, w, m, p, n, o, r, place, at);
        if number == 8 {
            at.write(at.read() - 1);
        }
        number
    }
);

planted!(
    one_byte_of_a_text_is_another,
    print_document,
    "bytes of output",
    (b: u32, f: *const u8, q: usize, l: u64, w: *const u32, m: usize, p: *const u8, n: usize, o: *mut u8, r: usize,
     place: *mut u64, at: *mut u64),
    {
        let number = dervisclo_print_document(b, f, q, l, w, m, p, n, o, r, place, at);
        if number == 0 && at.read() > 0 {
            let last = o.add(at.read() as usize - 1);
            last.write(last.read() ^ 1);
        }
        number
    }
);

planted!(
    a_level_loses_its_high_bits,
    print_document,
    "number: ",
    (b: u32, f: *const u8, q: usize, l: u64, w: *const u32, m: usize, p: *const u8, n: usize, o: *mut u8, r: usize,
     place: *mut u64, at: *mut u64),
    {
        dervisclo_print_document(b, f, q, l & 0x7f, w, m, p, n, o, r, place, at)
    }
);
