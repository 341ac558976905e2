//! The functions of the static library, declared as `include/ringmatch.h` declares them, each behind a safe function over slices.

/// Declares functions, and for each defines a safe one of the same name that calls it. The brackets list the slices that it reads, the
/// numbers that it reads, the slices that it writes to and the numbers that it writes; in this order they are its parameters, a slice
/// being a pointer and a number of elements. It returns 0 or a refusal's number.
macro_rules! declared {
    ($(
        $name:ident
        [$($input:ident: $read:ty),+] [$($plain:ident: $given:ty),*]
        [$($output:ident: $written:ty),*] [$($number:ident: $set:ty),+]
    )+) => {$(
        pub fn $name(
            $($input: &[$read],)+
            $($plain: $given,)*
            $($output: &mut [$written],)*
            $($number: &mut $set),+
        ) -> u32 {
            unsafe extern "C" {
                fn $name(
                    $($input: *const $read, _: usize,)+
                    $($plain: $given,)*
                    $($output: *mut $written, _: usize,)*
                    $($number: *mut $set),+
                ) -> u32;
            }
            unsafe {
                $name(
                    $($input.as_ptr(), $input.len(),)+
                    $($plain,)*
                    $($output.as_mut_ptr(), $output.len(),)*
                    $($number),+
                )
            }
        }
    )+};
}

declared! {
    ringmatch_accepts_words [sheet: u32, word: u32] [] [] [answer: u32]
    ringmatch_accepts_text [sheet: u32, text: u8] [] [] [answer: u32]
    ringmatch_accepts_series [sheet: u32, series: u32] [mark: u32] [] [answer: u32]
    ringmatch_determinize [sheet: u32] [] [out: u32, labels_out: u8] [words: u64, bytes: u64]
    ringmatch_intersection [a: u32, b: u32] [] [out: u32, labels_out: u8] [words: u64, bytes: u64]
    ringmatch_totalize [sheet: u32, labels: u8] [] [out: u32, labels_out: u8] [words: u64, bytes: u64]
    ringmatch_complement [sheet: u32, labels: u8] [] [out: u32, labels_out: u8] [words: u64, bytes: u64]
    ringmatch_epsilon_eliminate [sheet: u32, labels: u8] [] [out: u32, labels_out: u8] [words: u64, bytes: u64]
    ringmatch_is_nfa [sheet: u32] [] [] [answer: u32]
    ringmatch_has_reachable_accepting_state [sheet: u32] [] [] [answer: u32]
    ringmatch_is_equivalent [a: u32, b: u32] [] [] [answer: u32]
    ringmatch_is_subautomaton [a: u32, a_labels: u8, b: u32, b_labels: u8] [] [] [answer: u32]
    ringmatch_parse_automaton [text: u8] [] [out: u32, labels_out: u8] [read: u64, words: u64, bytes: u64]
    ringmatch_write_automaton [sheet: u32, labels: u8] [] [text_out: u8] [bytes: u64]
    ringmatch_equality [a: u32, b: u32] [] [word_out: u32] [same: u32, number: u64]
}
