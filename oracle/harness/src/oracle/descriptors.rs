//! The harness's own reading of JVMS 4.2, 4.3.2 and 4.3.3: one pass over the bytes.

/// Whether the bytes are one field descriptor.
pub fn is_field(descriptor: &[u8]) -> bool {
    let mut bytes = descriptor.iter();
    take_type(&mut bytes).is_some() && bytes.next().is_none()
}

/// The most argument words of a method, its receiver's among them (4.3.3).
const MOST_WORDS: u32 = 255;

/// Whether the bytes are the descriptor of a method with these flags.
pub fn is_method(descriptor: &[u8], flags: u32) -> bool {
    argument_words(descriptor, flags).is_some()
}

/// The argument words of a method, or nothing if the bytes are no descriptor of it.
pub fn argument_words(descriptor: &[u8], flags: u32) -> Option<u32> {
    let mut bytes = descriptor.iter();
    let mut words = if flags & 0x0008 == 0 { 1 } else { 0 };
    if bytes.next() != Some(&b'(') {
        return None;
    }
    while bytes.as_slice().first()? != &b')' {
        words += take_type(&mut bytes)?;
        if words > MOST_WORDS {
            return None;
        }
    }
    bytes.next();
    match bytes.as_slice() {
        b"V" => Some(words),
        result => is_field(result).then_some(words),
    }
}

/// Takes one field type from the front; answers its words.
fn take_type(bytes: &mut std::slice::Iter<u8>) -> Option<u32> {
    let mut dimensions = 0;
    let mut byte = bytes.next()?;
    while *byte == b'[' {
        dimensions += 1;
        byte = bytes.next()?;
    }
    let words = match byte {
        b'B' | b'C' | b'F' | b'I' | b'S' | b'Z' => 1,
        b'D' | b'J' => 2,
        b'L' => {
            take_class_name(bytes)?;
            1
        }
        _ => return None,
    };
    Some(if dimensions == 0 { words } else { 1 })
}

/// Takes a class name and the `;` that ends it.
fn take_class_name(bytes: &mut std::slice::Iter<u8>) -> Option<()> {
    let mut identifier_is_empty = true;
    loop {
        match bytes.next()? {
            b'.' | b'[' => return None,
            b';' | b'/' if identifier_is_empty => return None,
            b';' => return Some(()),
            b'/' => identifier_is_empty = true,
            _ => identifier_is_empty = false,
        }
    }
}
