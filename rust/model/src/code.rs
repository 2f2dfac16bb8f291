//! The byte code.

/// The code of a value: groups of seven bits, most significant first, each byte but the last with its high
/// bit set.
///
/// ```
/// assert_eq!(model::code_of(65_790), [0x84, 0x81, 0x7e]);
/// ```
pub fn code_of(value: u32) -> Vec<u8> {
    let mut groups = vec![value & 127];
    let mut rest = value >> 7;
    while rest > 0 {
        groups.push(rest & 127);
        rest >>= 7;
    }
    groups.reverse();
    let last = groups.len() - 1;
    (0..=last).map(|i| groups[i] as u8 + if i < last { 128 } else { 0 }).collect()
}

/// The values of a run of codes; nothing if one of them is no code, or is cut off.
pub fn values_of(mut bytes: &[u8]) -> Option<Vec<u32>> {
    let mut values = Vec::new();
    while !bytes.is_empty() {
        if bytes[0] == 0x80 {
            return None;
        }
        let length = bytes.iter().position(|&byte| byte < 128)? + 1;
        if length > 4 {
            return None;
        }
        values.push(bytes[..length].iter().fold(0, |value, &byte| value * 128 + u32::from(byte % 128)));
        bytes = &bytes[length..];
    }
    Some(values)
}

#[cfg(test)]
mod tests {
    use super::*;

    #[test]
    fn codes_of_document_01() {
        assert_eq!(code_of(0), [0x00]);
        assert_eq!(code_of(127), [0x7f]);
        assert_eq!(code_of(128), [0x81, 0x00]);
        assert_eq!(code_of(16_384), [0x81, 0x80, 0x00]);
        assert_eq!(code_of(65_790), [0x84, 0x81, 0x7e]);
        assert_eq!(code_of((1 << 28) - 1), [0xff, 0xff, 0xff, 0x7f]);
    }

    #[test]
    fn each_length_starts_where_the_last_one_ended() {
        for (value, length) in
            [(0, 1), (127, 1), (128, 2), (16_383, 2), (16_384, 3), (2_097_151, 3), (2_097_152, 4)]
        {
            assert_eq!(code_of(value).len(), length, "{value}");
            assert_eq!(values_of(&code_of(value)), Some(vec![value]));
        }
    }

    #[test]
    fn what_is_no_code() {
        for bytes in [&[0x80, 0x00][..], &[0x81], &[0x81, 0x80, 0x80, 0x80, 0x00], &[0x01, 0xff]] {
            assert_eq!(values_of(bytes), None, "{bytes:x?}");
        }
    }
}
