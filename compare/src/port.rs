//! The port's calls as its static library exports them, as far as the archive has them, each as a safe
//! function over slices.
//!
//! In C a slice is a pointer and a length. A call returns 0, or a refusal's number and then has
//! written nothing.

/// For each call a function that gives it where build.rs found it in the archive. The brackets list
/// the slices that the call reads, the numbers that it reads, the slices that it writes to and the
/// numbers that it writes; in this order they are its parameters.
macro_rules! exported {
    ($(
        $call:ident: $shape:ident = $symbol:ident if $found:ident
        [$($input:ident: $read:ty),+] [$($plain:ident: $given:ty),*]
        [$($output:ident: $written:ty),*] [$($number:ident: $set:ty),+]
    )+) => {$(
        #[cfg($found)]
        pub fn $call() -> Option<$shape> {
            unsafe extern "C" {
                fn $symbol(
                    $($input: *const $read, _: usize,)+
                    $($plain: $given,)*
                    $($output: *mut $written, _: usize,)*
                    $($number: *mut $set),+
                ) -> u32;
            }
            Some(|$($input,)+ $($plain,)* $($output,)* $($number),+| unsafe {
                $symbol(
                    $($input.as_ptr(), $input.len(),)+
                    $($plain,)*
                    $($output.as_mut_ptr(), $output.len(),)*
                    $($number),+
                )
            })
        }

        #[cfg(not($found))]
        pub fn $call() -> Option<$shape> {
            None
        }
    )+};
}

/// A sheet and a word, asked a question.
pub type AcceptsWords = fn(&[u32], &[u32], &mut u32) -> u32;
/// A sheet and a text, asked a question.
pub type AcceptsText = fn(&[u32], &[u8], &mut u32) -> u32;
/// A sheet and a series with its outer mark, asked a question.
pub type AcceptsSeries = fn(&[u32], &[u32], u32, &mut u32) -> u32;
/// A sheet to another.
pub type Determinize = fn(&[u32], &mut [u32], &mut [u8], &mut u64, &mut u64) -> u32;
/// Two sheets to another.
pub type Intersection = fn(&[u32], &[u32], &mut [u32], &mut [u8], &mut u64, &mut u64) -> u32;
/// A sheet and its labels to others.
pub type Operation = fn(&[u32], &[u8], &mut [u32], &mut [u8], &mut u64, &mut u64) -> u32;
/// A sheet, asked a question.
pub type Question = fn(&[u32], &mut u32) -> u32;
/// Two sheets, asked a question.
pub type IsEquivalent = fn(&[u32], &[u32], &mut u32) -> u32;
/// Two sheets with labels, asked a question.
pub type IsSubautomaton = fn(&[u32], &[u8], &[u32], &[u8], &mut u32) -> u32;
/// A text to a sheet.
pub type ParseAutomaton = fn(&[u8], &mut [u32], &mut [u8], &mut u64, &mut u64, &mut u64) -> u32;
/// A sheet and its labels to a text.
pub type WriteAutomaton = fn(&[u32], &[u8], &mut [u8], &mut u64) -> u32;
/// Two sheets to a verdict.
pub type Equality = fn(&[u32], &[u32], &mut [u32], &mut u32, &mut u64) -> u32;

exported! {
    accepts_words: AcceptsWords = ringmatch_accepts_words if has_accepts_words
    [sheet: u32, word: u32] [] [] [answer: u32]

    accepts_text: AcceptsText = ringmatch_accepts_text if has_accepts_text
    [sheet: u32, text: u8] [] [] [answer: u32]

    accepts_series: AcceptsSeries = ringmatch_accepts_series if has_accepts_series
    [sheet: u32, series: u32] [mark: u32] [] [answer: u32]

    determinize: Determinize = ringmatch_determinize if has_determinize
    [sheet: u32] [] [out: u32, labels_out: u8] [words: u64, bytes: u64]

    intersection: Intersection = ringmatch_intersection if has_intersection
    [a: u32, b: u32] [] [out: u32, labels_out: u8] [words: u64, bytes: u64]

    totalize: Operation = ringmatch_totalize if has_totalize
    [sheet: u32, labels: u8] [] [out: u32, labels_out: u8] [words: u64, bytes: u64]

    complement: Operation = ringmatch_complement if has_complement
    [sheet: u32, labels: u8] [] [out: u32, labels_out: u8] [words: u64, bytes: u64]

    epsilon_eliminate: Operation = ringmatch_epsilon_eliminate if has_epsilon_eliminate
    [sheet: u32, labels: u8] [] [out: u32, labels_out: u8] [words: u64, bytes: u64]

    is_nfa: Question = ringmatch_is_nfa if has_is_nfa
    [sheet: u32] [] [] [answer: u32]

    has_reachable_accepting_state: Question
    = ringmatch_has_reachable_accepting_state if has_has_reachable_accepting_state
    [sheet: u32] [] [] [answer: u32]

    is_equivalent: IsEquivalent = ringmatch_is_equivalent if has_is_equivalent
    [a: u32, b: u32] [] [] [answer: u32]

    is_subautomaton: IsSubautomaton = ringmatch_is_subautomaton if has_is_subautomaton
    [a: u32, a_labels: u8, b: u32, b_labels: u8] [] [] [answer: u32]

    parse_automaton: ParseAutomaton = ringmatch_parse_automaton if has_parse_automaton
    [text: u8] [] [out: u32, labels_out: u8] [read: u64, words: u64, bytes: u64]

    write_automaton: WriteAutomaton = ringmatch_write_automaton if has_write_automaton
    [sheet: u32, labels: u8] [] [text_out: u8] [bytes: u64]

    equality: Equality = ringmatch_equality if has_equality
    [a: u32, b: u32] [] [word_out: u32] [same: u32, number: u64]
}
