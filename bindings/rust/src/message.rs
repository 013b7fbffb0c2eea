//! Messages as octets (part 3, 3.2).

/// Returns an encoded message of one data section (part 3, 3.2.6).
///
/// ```
/// assert_eq!(teivorm::data_message(b"hi"), b"\x00\x53\x75\xa0\x02hi");
/// ```
pub fn data_message(body: &[u8]) -> Vec<u8> {
    let mut message = vec![0, 0x53, 0x75];
    match u8::try_from(body.len()) {
        Ok(len) => message.extend([0xa0, len]),
        Err(_) => {
            message.push(0xb0);
            message.extend((body.len() as u32).to_be_bytes());
        }
    }
    message.extend_from_slice(body);
    message
}
