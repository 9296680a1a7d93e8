//! Prints what a book of built orders doubts: lets an empty book judge an order form; then teaches a form to each of
//! two books, joins the one to the other, and lets that judge three new forms, first with books that look 3 deep, then
//! with books that look 2 deep. Each form judged is printed with a mark at the line that is doubted, and then with what
//! the book knows instead: how each neighbour in the book of that which is unknown first differs from the form. Of a
//! form that passes it prints the image that it is built with, by its crystal. It is linked with libofb.a. It ends with
//! status 0, or with 1 after a refusal or if its output cannot be written.

use std::error::Error;
use std::io::Write;

/// The library's functions, as include/ofb.h declares them, each behind a function on slices that is safe to call.
///
/// They are safe because a slice is what the header asks for: its pointer is aligned and not NULL, also at length 0; as
/// many words or bytes stand there as its length says; and a `&mut` slice overlaps nothing else that is lent to the
/// call.
mod ofb {
    /// The number of an answer that is no refusal: done, or the order passes.
    pub const DONE: u16 = 0;
    /// The least number by which an order is doubted: its top is unknown.
    pub const TOP_UNKNOWN: u16 = 20;
    /// The number of an order that is doubted because of a middle part.
    pub const MIDDLE_UNKNOWN: u16 = 22;

    /// An answer: its number, the line it speaks of or 0, and how many words or bytes were written.
    #[repr(C)]
    #[derive(Clone, Copy)]
    pub struct Answer {
        pub number: u16,
        pub line: u16,
        pub written: u32,
    }

    /// A judgement: its number, and the line it speaks of or 0. Of a doubted order it tells where that which is unknown
    /// would stand among those that the book knows: how many of these are lower, whether it is one of them, and the
    /// places of the first word in which the last lower one and the first higher one differ from it, or 0.
    #[repr(C)]
    #[derive(Clone, Copy)]
    pub struct Judged {
        pub number: u16,
        pub line: u16,
        pub below: u16,
        pub there: u16,
        pub place_below: u16,
        pub place_above: u16,
    }

    /// What choosing answers: its number, the line it speaks of or 0, and the image, or 0 with a refusal.
    #[repr(C)]
    #[derive(Clone, Copy)]
    pub struct Image {
        pub number: u16,
        pub line: u16,
        pub image: u32,
    }

    #[link(name = "ofb", kind = "static")]
    extern "C" {
        fn ofb_open(book: *mut u16, words: usize, k: u16) -> Answer;
        fn ofb_teach(book: *mut u16, words: usize, order: *const u16, count: usize) -> Answer;
        fn ofb_join(book: *mut u16, words: usize, other: *const u16, other_words: usize) -> Answer;
        fn ofb_judge(book: *const u16, words: usize, order: *const u16, count: usize) -> Judged;
        fn ofb_choose(
            book: *const u16,
            words: usize,
            order: *const u16,
            count: usize,
            rules: *const u16,
            rule_words: usize,
        ) -> Image;
        fn ofb_read_text(text: *const u8, bytes: usize, out: *mut u16, words: usize) -> Answer;
        fn ofb_write_text(order: *const u16, words: usize, out: *mut u8, bytes: usize) -> Answer;
    }

    /// Makes an empty book of the whole slice, which looks k deep.
    pub fn open(book: &mut [u16], k: u16) -> Answer {
        unsafe { ofb_open(book.as_mut_ptr(), book.len(), k) }
    }

    /// Teaches an order to the book.
    pub fn teach(book: &mut [u16], order: &[u16]) -> Answer {
        unsafe { ofb_teach(book.as_mut_ptr(), book.len(), order.as_ptr(), order.len()) }
    }

    /// Joins the orders of another book to the book.
    pub fn join(book: &mut [u16], other: &[u16]) -> Answer {
        unsafe { ofb_join(book.as_mut_ptr(), book.len(), other.as_ptr(), other.len()) }
    }

    /// Judges an order by the book.
    pub fn judge(book: &[u16], order: &[u16]) -> Judged {
        unsafe { ofb_judge(book.as_ptr(), book.len(), order.as_ptr(), order.len()) }
    }

    /// Chooses the image to build an order with, by the book and a list of rules.
    pub fn choose(book: &[u16], order: &[u16], rules: &[u16]) -> Image {
        let (book, words) = (book.as_ptr(), book.len());
        unsafe { ofb_choose(book, words, order.as_ptr(), order.len(), rules.as_ptr(), rules.len()) }
    }

    /// Reads the text of an order form to the order's words, at the front of out.
    pub fn read_text(text: &[u8], out: &mut [u16]) -> Answer {
        unsafe { ofb_read_text(text.as_ptr(), text.len(), out.as_mut_ptr(), out.len()) }
    }

    /// Writes the text of an order to the front of out.
    pub fn write_text(order: &[u16], out: &mut [u8]) -> Answer {
        unsafe { ofb_write_text(order.as_ptr(), order.len(), out.as_mut_ptr(), out.len()) }
    }
}

const FORM_A: &str = "0 1000\n1 2000\n2 0010\n1 3000\n2 3001\n";
const FORM_B: &str = "0 1000\n1 2000\n2 0016\n1 3000\n2 3001\n2 3002\n";
const FORM_C: &str = "0 1000\n1 2000\n2 0010\n1 3000\n2 3001\n2 3002\n";
const FORM_D: &str = "0 1000\n1 2000\n2 0010\n1 3000\n";
const FORM_E: &str = "0 3000\n1 3001\n";

/// Two rules, of one option each: 0010, the plain crystal, is built with image 7, and 0016, the oven, with 8.
const CRYSTALS: [u16; 9] = [2, 7, 1, 10, 0, 8, 1, 16, 0];

/// How many words each book has.
const BOOK_WORDS: usize = 2000;
/// The lowest level that a line may have.
const LOWEST: usize = 12;

/// What the number of an answer means, for the calls made here.
fn meaning(number: u16) -> &'static str {
    match number {
        1 => "the words are not one order",
        2 => "the order is too large or too deep",
        3 => "a book cannot look this deep",
        4 => "a book cannot have this many words",
        5 => "the words are no book in form",
        6 => "the book has too little room",
        7 => "the book cannot count further",
        9 => "a book does not agree with itself",
        10 => "the text is no order form",
        11 => "the output is too short",
        15 => "the two books look differently deep",
        20 => "no order taught begins like this one",
        21 => "this option, with all that stands below it, is in no order taught",
        22 => "this option, with what the book sees below it, is in no order taught",
        30 => "no rule fits the order",
        31 => "two rules that fit the order name different images",
        32 => "the words are no list of rules for a book that looks this deep",
        _ => "this program does not know the number",
    }
}

/// Says which call was refused and why.
fn refused(call: &str, number: u16, line: u16) -> String {
    format!("{call}: {number}, line {line}: {}", meaning(number))
}

/// How many words or bytes a call wrote, unless it was refused.
fn done(call: &str, answer: ofb::Answer) -> Result<usize, String> {
    if answer.number == ofb::DONE {
        Ok(answer.written as usize)
    } else {
        Err(refused(call, answer.number, answer.line))
    }
}

/// Reads the text of a form to the words of its order. The longest order has 64 options of two words each.
fn read_form(text: &str) -> Result<Vec<u16>, String> {
    let mut order = vec![0; 2 * 64];
    let words = done("ofb_read_text", ofb::read_text(text.as_bytes(), &mut order))?;
    order.truncate(words);
    Ok(order)
}

/// Makes an empty book of the slice, which looks k deep, and teaches it a form.
fn open_with(book: &mut [u16], k: u16, text: &str) -> Result<(), String> {
    let order = read_form(text)?;
    done("ofb_open", ofb::open(book, k))?;
    done("ofb_teach", ofb::teach(book, &order))?;
    Ok(())
}

/// The level of each line of an order; `left` is how many lines are still to come on each level.
fn levels(order: &[u16]) -> Vec<usize> {
    let (mut left, mut level) = ([0; LOWEST + 2], 0);
    let mut levels = Vec::new();
    left[0] = 1;
    for option in order.chunks_exact(2) {
        while left[level] == 0 {
            level -= 1;
        }
        left[level] -= 1;
        levels.push(level);
        level += 1;
        left[level] = option[1];
    }
    levels
}

/// How many levels, at most, that which is unknown has below its first line, by a book that looks k deep.
fn levels_below(k: u16, number: u16) -> usize {
    match number {
        ofb::TOP_UNKNOWN => usize::from(k) - 2,
        ofb::MIDDLE_UNKNOWN => usize::from(k) - 1,
        _ => LOWEST,
    }
}

/// The line of a place of that which is unknown. Its options, of two places each, are the lines from the marked one on
/// that stand on its levels.
fn line_of(book: &[u16], order: &[u16], verdict: ofb::Judged, place: usize) -> Option<usize> {
    let levels = levels(order);
    let marked = usize::from(verdict.line);
    let lowest = levels[marked - 1] + levels_below(book[0], verdict.number);
    let mut lines = (marked..=levels.len()).filter(|line| levels[line - 1] <= lowest);
    lines.nth((place - 1) / 2)
}

/// An entry of the book, counted from 0 among the tops, the low parts or the middle parts, as the number says.
fn entry_of(book: &[u16], number: u16, entry: u16) -> &[u16] {
    let sizes = &book[3..=usize::from(3 + number - ofb::TOP_UNKNOWN)];
    let before: usize = sizes.iter().copied().map(usize::from).sum();
    let mut at = 7;
    for _ in 0..before + usize::from(entry) {
        at += 2 + 2 * usize::from(book[at]);
    }
    &book[at..]
}

/// How many options there are, as it is said: a figure, or the word for none.
fn figure(options: u16, none: &str) -> String {
    if options == 0 {
        none.to_string()
    } else {
        options.to_string()
    }
}

/// Prints how an entry of the book differs from a form at the place where it first does.
fn print_neighbour(
    to: &mut dyn Write,
    book: &[u16],
    order: &[u16],
    verdict: ofb::Judged,
    entry: u16,
    place: u16,
) -> Result<(), Box<dyn Error>> {
    let place = usize::from(place);
    let line = line_of(book, order, verdict, place).ok_or("the form lacks this place")?;
    let (code, options) = (order[2 * line - 2], order[2 * line - 1]);
    let known = entry_of(book, verdict.number, entry)[1 + place];
    write!(to, "The book knows one that first differs at line {line}: ")?;
    if place % 2 == 1 {
        writeln!(to, "{known:04} in place of {code:04}.")?;
    } else {
        let plural = if known > 1 { "s" } else { "" };
        write!(to, "{} option{plural} right below {code:04}", figure(known, "no"))?;
        writeln!(to, " in place of {}.", figure(options, "none"))?;
    }
    Ok(())
}

/// Prints how the neighbours in the book of that which is unknown differ from a form: the last one below it, and the
/// first above.
fn print_neighbours(
    to: &mut dyn Write,
    book: &[u16],
    order: &[u16],
    verdict: ofb::Judged,
) -> Result<(), Box<dyn Error>> {
    let (below, above) = (verdict.place_below, verdict.place_above);
    if below != 0 {
        print_neighbour(to, book, order, verdict, verdict.below - 1, below)?;
    }
    if above != 0 {
        print_neighbour(to, book, order, verdict, verdict.below, above)?;
    }
    if below == 0 && above == 0 {
        writeln!(to, "The book knows none to compare it with.")?;
    }
    Ok(())
}

/// Prints the image that an order is built with, which the book passes.
fn print_image(to: &mut dyn Write, book: &[u16], order: &[u16]) -> Result<(), Box<dyn Error>> {
    let choice = ofb::choose(book, order, &CRYSTALS);
    if choice.number != ofb::DONE {
        return Err(refused("ofb_choose", choice.number, choice.line).into());
    }
    Ok(writeln!(to, "It is built with image {}.", choice.image)?)
}

/// Lets the book judge a form, and prints the form with a mark at the line that is doubted, and then what the book
/// knows instead, or the image. The text of an order has at most 8 bytes for each option, as in "12 9999\n".
fn judge(to: &mut dyn Write, book: &[u16], name: &str, text: &str) -> Result<(), Box<dyn Error>> {
    let order = read_form(text)?;
    let verdict = ofb::judge(book, &order);
    let passes = verdict.number == ofb::DONE;
    if !passes && verdict.number < ofb::TOP_UNKNOWN {
        return Err(refused("ofb_judge", verdict.number, verdict.line).into());
    }
    let mut out = [0; 8 * 64];
    let bytes = done("ofb_write_text", ofb::write_text(&order, &mut out))?;
    let heading = if passes { "passes" } else { "is doubted" };
    writeln!(to, "\nForm {name} {heading}:")?;
    for (line, option) in (1..).zip(std::str::from_utf8(&out[..bytes])?.lines()) {
        write!(to, "{option}")?;
        if line == verdict.line {
            write!(to, "  <-- {}: {}", verdict.number, meaning(verdict.number))?;
        }
        writeln!(to)?;
    }
    if passes {
        print_image(to, book, &order)
    } else {
        print_neighbours(to, book, &order, verdict)
    }
}

/// Prints how deep the book looks, and how much it holds.
fn print_head(to: &mut dyn Write, book: &[u16]) -> std::io::Result<()> {
    let [k, used, teachings] = [book[0], book[1], book[2]];
    write!(to, "A book that looks {k} deep: {teachings} teachings, ")?;
    writeln!(to, "{used} of {} words used.", book.len())
}

/// Lets the desk's book judge form A while it is empty.
fn try_empty(to: &mut dyn Write, k: u16) -> Result<(), Box<dyn Error>> {
    let mut desk = [0; BOOK_WORDS];
    done("ofb_open", ofb::open(&mut desk, k))?;
    print_head(to, &desk)?;
    judge(to, &desk, "A", FORM_A)
}

/// Teaches form A to the desk's book and form B to the workshop's, joins this to that, and lets the desk's judge C, D
/// and E.
fn try_book(to: &mut dyn Write, k: u16) -> Result<(), Box<dyn Error>> {
    let (mut desk, mut workshop) = ([0; BOOK_WORDS], [0; BOOK_WORDS]);
    open_with(&mut desk, k, FORM_A)?;
    open_with(&mut workshop, k, FORM_B)?;
    done("ofb_join", ofb::join(&mut desk, &workshop))?;
    print_head(to, &desk)?;
    judge(to, &desk, "C", FORM_C)?;
    judge(to, &desk, "D", FORM_D)?;
    judge(to, &desk, "E", FORM_E)
}

/// Tries an empty book, and then the book that is taught as it looks 3 deep and 2 deep.
fn try_all(to: &mut dyn Write) -> Result<(), Box<dyn Error>> {
    try_empty(to, 3)?;
    writeln!(to)?;
    try_book(to, 3)?;
    writeln!(to)?;
    try_book(to, 2)?;
    Ok(to.flush()?)
}

/// Prints to standard output; what stopped it is said on standard error.
fn main() {
    if let Err(reason) = try_all(&mut std::io::stdout()) {
        eprintln!("{reason}");
        std::process::exit(1);
    }
}
