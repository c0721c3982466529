//! Why bytes are no stored form, in a sentence. The number is the proved function's; what is said here is read off the
//! bytes and tested against it. Whether a text is one of its kind is asked of the proved test of soundness.

use crate::limits::{LONGEST_STORED, NESTING, PART, WIDEST, WORDS};
use crate::place::Place;
use crate::shown::quoted;
use crate::tree::{Kind, Tree};
use crate::writing::sound;
use std::borrow::Cow;
use std::collections::{HashSet, VecDeque};
use std::fmt;
use std::ops::Range;

/// The first thing that is wrong with stored bytes.
#[derive(Clone, PartialEq, Eq, Debug)]
pub struct FormFault {
    /// The field that is wrong, by its tag's place, or where one is missing.
    pub place: Place,
    /// What is wrong, without a full stop.
    pub sentence: String,
}

impl fmt::Display for FormFault {
    fn fmt(&self, out: &mut fmt::Formatter) -> fmt::Result {
        write!(out, "{}, at byte {}", self.sentence, self.place.0)
    }
}

/// Why bytes are no stored form; nothing if they are one.
///
/// ```
/// let fault = yay::form_fault(&[8, 0, 4, 4, 0, 1, b'-']).unwrap();
/// assert_eq!(fault.to_string(), "an integer has another text than \"-\", at byte 3");
/// assert_eq!(yay::form_fault(&[8, 0, 4, 4, 0, 1, b'7']), None);
/// ```
pub fn form_fault(stored: &[u8]) -> Option<FormFault> {
    whole(stored).err()
}

type Tested<T> = Result<T, FormFault>;

fn fault<T>(place: usize, sentence: impl Into<String>) -> Tested<T> {
    Err(FormFault { place: Place(place), sentence: sentence.into() })
}

fn whole(stored: &[u8]) -> Tested<()> {
    if stored.len() > LONGEST_STORED {
        return fault(0, format!("there are more than {LONGEST_STORED} bytes, the most that a stored form has"));
    }
    let mut runs = Runs::new(VecDeque::from([0..stored.len()]));
    Walk { stored }.value(&mut runs, 0)?;
    if runs.left > 0 {
        return fault(runs.place(), "a stored form is one field, and bytes stand behind it");
    }
    Ok(())
}

/// A content, or what is left of it: the places of its bytes, run by run. There is always one, be it empty.
struct Runs {
    runs: VecDeque<Range<usize>>,
    /// How many bytes it has.
    left: usize,
}

impl Runs {
    fn new(runs: VecDeque<Range<usize>>) -> Runs {
        Runs { left: runs.iter().map(Range::len).sum(), runs }
    }

    /// Where its next byte stands, or would stand.
    fn place(&self) -> usize {
        self.runs[0].start
    }

    /// Its first bytes, of which there are enough, are taken away and put behind other ones.
    fn take(&mut self, mut count: usize, others: &mut VecDeque<Range<usize>>) {
        self.left -= count;
        while count > 0 {
            let run = &mut self.runs[0];
            let taken = count.min(run.len());
            others.push_back(run.start..run.start + taken);
            run.start += taken;
            count -= taken;
            if run.start == run.end && self.runs.len() > 1 {
                self.runs.pop_front();
            }
        }
    }
}

struct Walk<'a> {
    stored: &'a [u8],
}

/// A field's first tag's place, its true tag, and its content out of all its parts.
struct Field {
    at: usize,
    tag: u8,
    content: Runs,
}

impl<'a> Walk<'a> {
    /// The bytes of a content.
    fn bytes(&self, runs: &VecDeque<Range<usize>>) -> Cow<'a, [u8]> {
        let mut parts = runs.iter().map(|run| &self.stored[run.clone()]);
        match (runs.len(), parts.next()) {
            (0 | 1, first) => Cow::Borrowed(first.unwrap_or_default()),
            _ => Cow::Owned(runs.iter().flat_map(|run| &self.stored[run.clone()]).copied().collect()),
        }
    }

    /// A tag and the content behind it, which is put behind other ones.
    fn part(&self, runs: &mut Runs, content: &mut VecDeque<Range<usize>>) -> Tested<(u8, usize)> {
        let (at, mut head) = (runs.place(), VecDeque::new());
        if runs.left < 3 {
            return fault(at, "a field has a tag and two bytes of length, and there are fewer bytes");
        }
        runs.take(3, &mut head);
        let head = self.bytes(&head);
        let (length, left) = (usize::from(head[1]) << 8 | usize::from(head[2]), runs.left);
        if length > left {
            return fault(at, format!("this field says that its content has {length} bytes, and there are {left}"));
        }
        if head[0] == PART && length != WIDEST {
            return fault(at, format!("a part, which has the tag {PART}, has {WIDEST} bytes, and this has {length}"));
        }
        runs.take(length, content);
        Ok((head[0], length))
    }

    /// The next field, out of all its parts.
    fn field(&self, runs: &mut Runs) -> Tested<Field> {
        let (at, mut content) = (runs.place(), VecDeque::new());
        if runs.left == 0 {
            return fault(at, "a value is missing");
        }
        let (mut tag, _) = self.part(runs, &mut content)?;
        while tag == PART {
            let place = runs.place();
            if runs.left == 0 {
                return fault(place, "behind a part a field goes on, and there is none");
            }
            let (next, length) = self.part(runs, &mut content)?;
            if length == 0 {
                return fault(place, "behind a part a field goes on, and this has no content");
            }
            tag = next;
        }
        if content.is_empty() {
            content.push_back(at + 3..at + 3);
        }
        Ok(Field { at, tag, content: Runs::new(content) })
    }

    /// A value with all that is in it; `around` containers are around it.
    fn value(&self, runs: &mut Runs, around: usize) -> Tested<()> {
        let Field { at, tag, content } = self.field(runs)?;
        match Kind::from_code(tag.into()) {
            None => fault(at, format!("{tag} is no tag; those of values are 1 to 9")),
            Some(Kind::Key) => fault(at, "a key stands where a value has to"),
            Some(Kind::Array | Kind::Object) if around == NESTING => {
                fault(at, format!("here a container stands inside {NESTING} others, the most there may be"))
            }
            Some(Kind::Array) => self.array(content, around),
            Some(Kind::Object) => self.object(content, around),
            Some(kind) => self.scalar(kind, at, &self.bytes(&content.runs)),
        }
    }

    fn array(&self, mut content: Runs, around: usize) -> Tested<()> {
        while content.left > 0 {
            self.value(&mut content, around + 1)?;
        }
        Ok(())
    }

    fn object(&self, mut content: Runs, around: usize) -> Tested<()> {
        let mut keys = HashSet::new();
        while content.left > 0 {
            let key = self.field(&mut content)?;
            if key.tag != Kind::Key as u8 {
                return fault(key.at, format!("a key has the tag {}, and this is {}", Kind::Key as u8, key.tag));
            }
            let name = self.bytes(&key.content.runs);
            self.scalar(Kind::Key, key.at, &name)?;
            if keys.contains(&name) {
                return fault(key.at, format!("the key {} stands in its object already", quoted(&name)));
            }
            keys.insert(name);
            self.value(&mut content, around + 1)?;
        }
        Ok(())
    }

    /// A text, asked of the proved test of soundness.
    fn scalar(&self, kind: Kind, at: usize, text: &[u8]) -> Tested<()> {
        if matches!(kind, Kind::Null | Kind::False | Kind::True) {
            return match text.len() {
                0 => Ok(()),
                count => fault(at, format!("{} has no content, and this has {count} bytes", kind.name())),
            };
        }
        // A key is a string.
        let asked = if kind == Kind::Key { Kind::String } else { kind };
        let mut row = [0; WORDS];
        [row[0], row[4], row[6]] = [asked as u32, text.len() as u32, 1];
        if sound(&Tree::new(&row, 1, text)) {
            return Ok(());
        }
        match asked {
            Kind::String => fault(at, format!("the text of {} is no UTF-8", kind.with_article())),
            _ => fault(at, format!("{} has another text than {}", kind.with_article(), quoted(text))),
        }
    }
}
