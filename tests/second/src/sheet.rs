//! The sheet's line form.

const SPACE: u8 = 0x20;

/// What a line may end in: a line feed, or carriage return and line feed.
const ENDS: [&[u8]; 2] = [&[0x0a], &[0x0d, 0x0a]];

/// A line's form but for its end: so many numbers of at most so many digits.
#[derive(Clone, Copy)]
struct Form {
    numbers: usize,
    digits: usize,
}

const COUNT: Form = Form {
    numbers: 1,
    digits: 3,
};
const HOURS: Form = Form {
    numbers: 1,
    digits: 4,
};
const ORDER: Form = Form {
    numbers: 2,
    digits: 3,
};

/// One digit or more and no leading zero, except 0 itself.
fn is_number(text: &[u8], digits: usize) -> bool {
    (1..=digits).contains(&text.len())
        && text.iter().all(u8::is_ascii_digit)
        && (text.len() == 1 || text[0] != b'0')
}

fn fields(text: &[u8]) -> Vec<&[u8]> {
    text.split(|&byte| byte == SPACE).collect()
}

/// A whole line but for its end: its numbers with one space between.
fn is_content(text: &[u8], form: Form) -> bool {
    let fields = fields(text);
    fields.len() == form.numbers && fields.iter().all(|field| is_number(field, form.digits))
}

/// Whether the content of some line of the form begins with the text.
fn begins_content(text: &[u8], form: Form) -> bool {
    let fields = fields(text);
    let (last, full) = fields.split_last().unwrap();
    fields.len() <= form.numbers
        && full.iter().all(|field| is_number(field, form.digits))
        && (last.is_empty() || is_number(last, form.digits))
}

/// The content of a whole line of the form, its end taken off.
fn content(text: &[u8], form: Form) -> Option<&[u8]> {
    ENDS.iter()
        .filter_map(|end| text.strip_suffix(*end))
        .find(|content| is_content(content, form))
}

/// Whether some line of the form begins with the text: the text begins a
/// content, or is a whole one and the beginning of an end.
fn begins_line(text: &[u8], form: Form) -> bool {
    let within_end = |end: &[u8]| {
        (0..=end.len())
            .filter_map(|length| text.strip_suffix(&end[..length]))
            .any(|content| is_content(content, form))
    };
    begins_content(text, form) || ENDS.iter().any(|end| within_end(end))
}

fn numbers_of(content: &[u8]) -> Vec<usize> {
    fields(content)
        .iter()
        .map(|field| {
            field
                .iter()
                .fold(0, |number, digit| 10 * number + (digit - b'0') as usize)
        })
        .collect()
}

/// What a sheet in the line form says.
#[derive(Clone, Debug, Default, PartialEq, Eq)]
pub struct Sheet {
    pub count: usize,
    pub hours: Vec<usize>,
    pub orders: Vec<(usize, usize)>,
}

/// The count line, as many hours lines as it says, and the order lines; or the
/// place where the line form is broken.
pub fn read(sheet: &[u8]) -> Result<Sheet, usize> {
    let mut lines: Vec<Vec<usize>> = Vec::new();
    let mut start = 0;
    for at in 0..sheet.len() {
        let form = match lines.first() {
            None => COUNT,
            Some(count) if lines.len() <= count[0] => HOURS,
            Some(_) => ORDER,
        };
        let text = &sheet[start..=at];
        if let Some(content) = content(text, form) {
            lines.push(numbers_of(content));
            start = at + 1;
        } else if !begins_line(text, form) {
            return Err(at);
        }
    }
    if lines.is_empty() || lines.len() <= lines[0][0] || start < sheet.len() {
        return Err(sheet.len());
    }
    let count = lines[0][0];
    let (hours, orders) = lines[1..].split_at(count);
    Ok(Sheet {
        count,
        hours: hours.iter().map(|line| line[0]).collect(),
        orders: orders.iter().map(|line| (line[0], line[1])).collect(),
    })
}
