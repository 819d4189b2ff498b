//! The answer to an exam text, and its whole output.

use crate::{accepted, written, Refusal};

/// Space that is enough for the answer to every exam text, and for its whole output: 64 lines for each of 32 prefix lengths, and 32 heavy strings.
///
/// ```
/// let lines: usize = (1..=32).map(|bits| 64 * (bits + 4)).sum();
/// assert_eq!(tally::EXAM_SPACE, lines + 32 * (7 + 32));
/// ```
pub const EXAM_SPACE: usize = 43_232;

/// The answer to an exam text: a line for each queried prefix, its bits and its total, in record order; then for each heavy string, ascending, a line
/// `heavy` and the string. Each line ends in a newline.
///
/// The text is a line `n t C e`, then C lines `string seed0 seed1`, and nothing after them: single spaces, and one newline at the end of each
/// line. n, t, C and e are decimal, at most 5 digits without leading zeros (zero is `0`); n and C are at most 32; e is the expander's number,
/// and where it is missing, with the space before it, it is 2. A string is n digits 0 or 1, a seed 32 hexadecimal digits in lower case. The text has at most 4,096 bytes.
///
/// ```
/// use tally::{exam, Refusal};
///
/// let text = "2 2 3 2
/// 01 000102030405060708090a0b0c0d0e0f 101112131415161718191a1b1c1d1e1f
/// 01 202122232425262728292a2b2c2d2e2f 303132333435363738393a3b3c3d3e3f
/// 11 404142434445464748494a4b4c4d4e4f 505152535455565758595a5b5c5d5e5f
/// ";
/// assert_eq!(exam(text.as_bytes())?, b"0 2\n1 1\n00 0\n01 2\nheavy 01\n");
/// # Ok::<(), Refusal>(())
/// ```
///
/// # Errors
///
/// * 10, [`Refusal::ExamText`]: judged first;
/// * 1, [`Refusal::StringLength`]: n is 0;
/// * 2, [`Refusal::Threshold`];
/// * 3, [`Refusal::Expander`].
pub fn exam(text: &[u8]) -> Result<Vec<u8>, Refusal> {
    written(EXAM_SPACE, |out| exam_into(text, out))
}

/// Writes the answer to an exam text into `out`, and returns how many bytes that is; [`EXAM_SPACE`] bytes are enough.
///
/// ```
/// use tally::{exam_into, Refusal};
///
/// let mut out = [0; 8];
/// assert_eq!(exam_into(b"1 1 0\n", &mut out)?, 8);
/// assert_eq!(&out, b"0 0\n1 0\n");
/// # Ok::<(), Refusal>(())
/// ```
///
/// # Errors
///
/// * 10, [`Refusal::ExamText`]: judged first;
/// * 1, [`Refusal::StringLength`]: n is 0;
/// * 2, [`Refusal::Threshold`];
/// * 3, [`Refusal::Expander`];
/// * 11, [`Refusal::Space`]: `out` is too small for the whole answer.
pub fn exam_into(text: &[u8], out: &mut [u8]) -> Result<usize, Refusal> {
    let reply = tally_sys::exam(text, out);
    accepted(reply.number, reply.length, out.len())
}

/// The whole output for an exam text, as the exam program prints it: the answer, as [`exam`](exam()) gives it, or where the text is refused with
/// 10, 1, 2 or 3 the one line `refused` and that number. That line is no error here, while [`exam`](exam()) returns the number as its error.
///
/// ```
/// use tally::{respond, Refusal};
///
/// assert_eq!(respond(b"1 1 0\n")?, b"0 0\n1 0\n");
/// assert_eq!(respond(b"1 1 1\n")?, b"refused 10\n");
/// # Ok::<(), Refusal>(())
/// ```
///
/// # Errors
///
/// None of the proved library, since [`EXAM_SPACE`] bytes are always enough; [`Refusal::Unknown`] where another is linked.
pub fn respond(text: &[u8]) -> Result<Vec<u8>, Refusal> {
    written(EXAM_SPACE, |out| respond_into(text, out))
}

/// Writes the whole output for an exam text into `out`, and returns how many bytes that is; [`EXAM_SPACE`] bytes are enough. Where it writes the
/// line of a refusal it returns that line's length.
///
/// ```
/// use tally::{respond_into, Refusal};
///
/// let mut out = [0; 10];
/// assert_eq!(respond_into(b"0 1 0\n", &mut out)?, 10);
/// assert_eq!(&out, b"refused 1\n");
/// assert_eq!(respond_into(b"0 1 0\n", &mut out[..9]), Err(Refusal::Space));
/// # Ok::<(), Refusal>(())
/// ```
///
/// # Errors
///
/// * 11, [`Refusal::Space`]: `out` is too small for the whole output, whatever the text.
pub fn respond_into(text: &[u8], out: &mut [u8]) -> Result<usize, Refusal> {
    let reply = tally_sys::respond(text, out);
    accepted(reply.number, reply.length, out.len())
}
