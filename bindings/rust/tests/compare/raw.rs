//! Questions put through the C names, checked or of an archive opened before.
use crate::ask::{eight, Scratch};
use crate::questions::{Question, Span};
use crate::sys::*;
use masuvelior::marks::AND;

/// The out-parameters before a call.
pub const UNWRITTEN: [u32; 3] = [0xC001_0001, 0xC002_0002, 0xC003_0003];

/// Which functions are called.
#[derive(Clone, Copy, Debug, PartialEq)]
pub enum Form {
    Checked,
    /// Only for bytes that `masuvelior_open` accepts.
    Opened,
}

pub const FORMS: [Form; 2] = [Form::Checked, Form::Opened];

/// The function of a form, and of a range.
macro_rules! function {
    ($form:expr; $checked:ident, $opened:ident) => {
        match $form {
            Form::Checked => $checked,
            Form::Opened => $opened,
        }
    };
    ($form:expr, $span:expr; $checked:ident, $opened:ident, $checked_terms:ident, $opened_terms:ident) => {
        match ($form, $span) {
            (Form::Checked, Span::Entries(..)) => $checked,
            (Form::Opened, Span::Entries(..)) => $opened,
            (Form::Checked, Span::Terms(..)) => $checked_terms,
            (Form::Opened, Span::Terms(..)) => $opened_terms,
        }
    };
}

fn ends(span: Span) -> (u32, u32) {
    match span {
        Span::Entries(a, b) => (a, b),
        Span::Terms(first, last) => (first, last),
    }
}

/// The terms or documents, and behind them numbers that are none: those past the length are not to be looked at.
fn with_more(numbers: &[u32]) -> Vec<u32> {
    [numbers, &[u32::MAX; 8]].concat()
}

/// The question, and behind it what would make another of it.
fn with_and_more(question: &[u16]) -> Vec<u16> {
    [question, &[AND, 0]].concat()
}

/// Puts the question; the answer is the number that the function answers. The caller keeps what `Form::Opened` says.
pub fn ask(bytes: &[u8], form: Form, question: &Question, scratch: &mut Scratch, out: &mut [u32; 3]) -> u32 {
    match question {
        Question::List { .. }
        | Question::Conjunction { .. }
        | Question::Boolean { .. }
        | Question::RarestFirst { .. } => one_slice(bytes, form, question, &mut scratch.first, &mut out[0]),
        Question::Read | Question::Greedy { .. } | Question::Probing { .. } | Question::Weighted { .. } => {
            two_slices(bytes, form, question, scratch, out)
        }
        _ => numbers(bytes, form, question, out),
    }
}

fn numbers(bytes: &[u8], form: Form, question: &Question, out: &mut [u32; 3]) -> u32 {
    let (archive, length) = (bytes.as_ptr(), bytes.len());
    let [x, y, _] = out;
    // SAFETY: POINTERS, WRITTEN and CONST by the references; OPENED is kept by our caller.
    unsafe {
        match *question {
            Question::Access { place } => {
                let ask = function!(form; masuvelior_access, masuvelior_opened_access);
                ask(archive, length, place, x)
            }
            Question::Rank { document, place } => {
                let ask = function!(form; masuvelior_rank, masuvelior_opened_rank);
                ask(archive, length, document, place, x)
            }
            Question::RankSet { ref set, place } => {
                let ask = function!(form; masuvelior_rank_set, masuvelior_opened_rank_set);
                let more = with_more(set);
                ask(archive, length, more.as_ptr(), set.len(), place, x)
            }
            Question::Select { document, j } => {
                let ask = function!(form; masuvelior_select, masuvelior_opened_select);
                ask(archive, length, document, j, x)
            }
            Question::Quantile { span, r } => {
                let ask = function!(form, span; masuvelior_quantile, masuvelior_opened_quantile, masuvelior_quantile_terms, masuvelior_opened_quantile_terms);
                let (a, b) = ends(span);
                ask(archive, length, a, b, r, x)
            }
            Question::RangeOfTerms { first, last } => {
                let ask = function!(form; masuvelior_range_of_terms, masuvelior_opened_range_of_terms);
                ask(archive, length, first, last, x, y)
            }
            _ => unreachable!("not of numbers: {question:?}"),
        }
    }
}

fn one_slice(bytes: &[u8], form: Form, question: &Question, answers: &mut [u32], listed: &mut u32) -> u32 {
    let (archive, length) = (bytes.as_ptr(), bytes.len());
    let (first, first_length) = (answers.as_mut_ptr(), answers.len());
    // SAFETY: POINTERS, WRITTEN and CONST by the references; OPENED is kept by our caller.
    unsafe {
        match question {
            Question::List { span } => {
                let ask = function!(form, *span; masuvelior_list, masuvelior_opened_list, masuvelior_list_terms, masuvelior_opened_list_terms);
                let (a, b) = ends(*span);
                ask(archive, length, a, b, first, first_length, listed)
            }
            Question::Conjunction { terms } => {
                let ask = function!(form; masuvelior_conjunction, masuvelior_opened_conjunction);
                let chosen = with_more(terms);
                ask(archive, length, chosen.as_ptr(), terms.len(), first, first_length, listed)
            }
            Question::Boolean { question } => {
                let ask = function!(form; masuvelior_boolean, masuvelior_opened_boolean);
                let more = with_and_more(question);
                ask(archive, length, more.as_ptr(), question.len(), first, first_length, listed)
            }
            Question::RarestFirst { terms } => {
                let ask = function!(form; masuvelior_rarest_first, masuvelior_opened_rarest_first);
                let chosen = with_more(terms);
                ask(archive, length, chosen.as_ptr(), terms.len(), eight(answers), listed)
            }
            _ => unreachable!("not of one slice: {question:?}"),
        }
    }
}

fn two_slices(bytes: &[u8], form: Form, question: &Question, scratch: &mut Scratch, out: &mut [u32; 3]) -> u32 {
    let (archive, length) = (bytes.as_ptr(), bytes.len());
    let (first, first_length) = (scratch.first.as_mut_ptr(), scratch.first.len());
    let (second, second_length) = (scratch.second.as_mut_ptr(), scratch.second.len());
    let [x, y, z] = out;
    // SAFETY: POINTERS, WRITTEN and CONST by the references; OPENED is kept by our caller.
    unsafe {
        match question {
            Question::Read => {
                let ask = function!(form; masuvelior_read, masuvelior_opened_read);
                ask(archive, length, first, first_length, second, second_length, x, y, z)
            }
            Question::Greedy { span, k, allowance } => {
                let ask = function!(form, *span; masuvelior_greedy_entries, masuvelior_opened_greedy_entries, masuvelior_greedy_terms, masuvelior_opened_greedy_terms);
                let (a, b) = ends(*span);
                ask(archive, length, a, b, *k, *allowance, first, first_length, second, second_length, x, y, z)
            }
            Question::Probing { span, k } => {
                let ask = function!(form, *span; masuvelior_probing_entries, masuvelior_opened_probing_entries, masuvelior_probing_terms, masuvelior_opened_probing_terms);
                let (a, b) = ends(*span);
                ask(archive, length, a, b, *k, first, first_length, second, second_length, x)
            }
            Question::Weighted { terms, k, allowance } => {
                let ask = function!(form; masuvelior_weighted, masuvelior_opened_weighted);
                let more = with_more(terms);
                let (chosen, size) = (more.as_ptr(), terms.len());
                ask(archive, length, chosen, size, *k, *allowance, first, first_length, second, second_length, x, y, z)
            }
            _ => unreachable!("not of two slices: {question:?}"),
        }
    }
}
