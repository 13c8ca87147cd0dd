//! Bytes in a line of traffic.

/// As many as a line may have.
const MOST: usize = 0xffff;

/// The bytes of hex digits, which spaces may part; `none` is no bytes.
pub fn bytes(text: &str) -> Result<Vec<u8>, String> {
    if text == "none" {
        return Ok(Vec::new());
    }
    let digits = text.chars().filter(|letter| !letter.is_whitespace());
    let digits: Vec<u8> = digits.map(digit).collect::<Result<_, String>>()?;
    match digits.len() {
        0 => Err("the bytes are missing (`none` says that there are none)".to_owned()),
        odd if odd % 2 == 1 => Err(format!("{odd} hex digits are no whole bytes")),
        many if many > 2 * MOST => Err(format!("more than {MOST} bytes")),
        _ => Ok(digits
            .chunks(2)
            .map(|pair| pair[0] << 4 | pair[1])
            .collect()),
    }
}

/// A number of one or two bytes in decimal digits, and nothing else.
pub fn count(text: &str) -> Result<usize, String> {
    let plain = !text.is_empty() && text.bytes().all(|byte| byte.is_ascii_digit());
    let number = text.parse().ok().filter(|&number| plain && number <= MOST);
    number.ok_or_else(|| format!("`{text}` is no number from 0 to {MOST}"))
}

fn digit(letter: char) -> Result<u8, String> {
    let digit = letter.to_digit(16).map(u8::try_from);
    match digit {
        Some(Ok(digit)) => Ok(digit),
        _ => Err(format!("`{}` is no hex digit", letter.escape_default())),
    }
}
