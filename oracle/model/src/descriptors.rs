//! Descriptors by the JVM Specification (4.2, 4.3.2, 4.3.3), and argument words.

/// FieldDescriptor: a FieldType, whole.
pub fn is_field_descriptor(bytes: &[u8]) -> bool {
    field_type(bytes) == Some(bytes.len())
}

/// A method's descriptor by 4.3.3, limit and all.
pub fn is_method_descriptor(bytes: &[u8], flags: u32) -> bool {
    argument_words(bytes, flags).is_ok()
}

/// `(IJ)V` instance: 4 argument words; static: 3. `(V)V`: 5. "at most 255 words, with one for the receiver of an instance method"
pub fn argument_words(descriptor: &[u8], flags: u32) -> Result<u32, u32> {
    let receiver = u32::from(flags & 0x0008 == 0);
    parameter_words(descriptor).map(|words| receiver + words).filter(|&words| words <= 255).ok_or(5)
}

/// MethodDescriptor: `(` {ParameterDescriptor} `)` ReturnDescriptor, whole: the words of its parameters, J and D two each, or nothing if
/// it is none.
fn parameter_words(bytes: &[u8]) -> Option<u32> {
    let mut rest = bytes.strip_prefix(b"(")?;
    let mut words = 0;
    while rest.first() != Some(&b')') {
        let length = field_type(rest)?;
        words += if matches!(rest[0], b'J' | b'D') { 2 } else { 1 };
        rest = &rest[length..];
    }
    let result = &rest[1..];
    (result == b"V" || is_field_descriptor(result)).then_some(words)
}

/// The length of the FieldType that `bytes` starts with.
fn field_type(bytes: &[u8]) -> Option<usize> {
    match bytes.first()? {
        b'B' | b'C' | b'D' | b'F' | b'I' | b'J' | b'S' | b'Z' => Some(1),
        b'L' => {
            let end = bytes.iter().position(|&byte| byte == b';')?;
            is_class_name(&bytes[1..end]).then_some(end + 1)
        }
        b'[' => Some(1 + field_type(&bytes[1..])?),
        _ => None,
    }
}

/// 4.2.1: unqualified names separated by `/`; 4.2.2: an unqualified name is not empty and
/// has none of `.`, `;`, `[` and `/`.
fn is_class_name(bytes: &[u8]) -> bool {
    bytes.split(|&byte| byte == b'/').all(|name| !name.is_empty() && !name.iter().any(|byte| b".;[".contains(byte)))
}
