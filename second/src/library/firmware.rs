//! The library's firmware messages and its reader of any field.

use crate::implementation::Operation;
use pitokaenge::declarations::*;

/// One of the operations that stand here.
pub fn call(
    operation: Operation,
    numbers: &[u64],
    inputs: &[Vec<u8>],
    lent: &mut [u8],
    answer: &mut [u64],
) -> u64 {
    let (bytes, size) = (lent.as_mut_ptr(), lent.len());
    let (told, tells) = (answer.as_mut_ptr(), answer.len());
    let (given, length) = (inputs[0].as_ptr(), inputs[0].len());
    // Every pointer comes from a slice that outlives the call, with that slice's length.
    unsafe {
        match operation {
            Operation::SegmentRead => pito_segment_read(given, length, told, tells),
            Operation::SegmentWrite => {
                let (signature, signature_length) = (inputs[1].as_ptr(), inputs[1].len());
                pito_segment_write(
                    given,
                    length,
                    numbers[0],
                    numbers[1],
                    signature,
                    signature_length,
                    bytes,
                    size,
                    told,
                    tells,
                )
            }
            Operation::ApplyRead => pito_apply_read(given, length, told, tells),
            Operation::ApplyWrite => pito_apply_write(
                numbers.as_ptr(),
                numbers.len(),
                given,
                length,
                bytes,
                size,
                told,
                tells,
            ),
            Operation::FieldRead => pito_field_read(given, length, numbers[0], told, tells),
            _ => panic!("not a firmware message"),
        }
    }
}
