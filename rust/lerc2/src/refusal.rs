//! Why something was refused, and where.

use crate::raw;
use std::error::Error;
use std::fmt;

/// A refused call: why, and where to look in the blob.
///
/// ```
/// use lerc2::{Refusal, Why};
///
/// let refusal = lerc2::read_header(b"Lerc2 ").unwrap_err();
/// assert_eq!(refusal, Refusal { why: Why::PassesSize, place: 0 });
/// assert_eq!(refusal.to_string(), "refused 1 at 0");
/// ```
#[derive(Clone, Copy, Debug, PartialEq, Eq, Hash)]
pub struct Refusal {
    /// Why.
    pub why: Why,
    /// Where, as an offset from the blob's first byte.
    ///
    /// | refused | place |
    /// |---|---|
    /// | 1, 8, 9 inside a block | its flag byte, or where that should be: in a fill the listed start as given |
    /// | 1, 8, 10 of the sweep byte | that byte, or where it should be: in a walk the body's place as given |
    /// | 1, 8, 10 of the mode byte, 1, 8 of a Huffman image | the byte behind it |
    /// | 1 of a raw body | the first byte of the first word that is not whole within the size |
    /// | 1 of the ranges | their first byte, behind the mask section |
    /// | 6 | 66, the count of mask bytes |
    /// | 7 of ranges that are read | the first byte of the first wrong number, depth by depth, minimum before maximum; the maximum where it is the lesser |
    /// | all else, 7 in a walk or fill too | 0 |
    pub place: usize,
}

/// Why a call was refused. Each has one number, 1 to 13.
#[derive(Clone, Copy, Debug, PartialEq, Eq, Hash)]
pub enum Why {
    /// 1: a field, number or packed run passes the declared size, or the blob
    /// is shorter than it or than 70 bytes.
    PassesSize = 1,
    /// 2: key or version differs.
    WrongKey = 2,
    /// 3: a header field breaks its rule; or a publish is given an answer, spare
    /// or list that staging did not give.
    WrongField = 3,
    /// 4: a ceiling is passed.
    Ceiling = 4,
    /// 5: a lent slice is too short.
    NoRoom = 5,
    /// 6: the mask section is wrong.
    WrongMask = 6,
    /// 7: a range number is not finite, or a maximum less than its minimum.
    WrongRange = 7,
    /// 8: a block, sweep or mode byte is wrong, or a Huffman image: its table, or
    /// bits that begin no code.
    WrongBlock = 8,
    /// 9: a value does not fit its integer kind.
    DoesNotFit = 9,
    /// 10: a walk on a body not in blocks.
    NotBlocks = 10,
    /// 11: the block number is at or above the count.
    NoSuchBlock = 11,
    /// 12: a pack breaks a rule, or has no such tile; or the tiles that are given
    /// make no pack.
    WrongPack = 12,
    /// 13: the checksum is not that of the blob's bytes.
    WrongChecksum = 13,
}

impl Why {
    /// All of them, in the order of their numbers.
    pub const ALL: [Why; 13] = [
        Why::PassesSize,
        Why::WrongKey,
        Why::WrongField,
        Why::Ceiling,
        Why::NoRoom,
        Why::WrongMask,
        Why::WrongRange,
        Why::WrongBlock,
        Why::DoesNotFit,
        Why::NotBlocks,
        Why::NoSuchBlock,
        Why::WrongPack,
        Why::WrongChecksum,
    ];

    /// Its number.
    pub fn number(self) -> u32 {
        self as u32
    }

    fn of(number: u32) -> Option<Why> {
        Why::ALL.into_iter().find(|why| why.number() == number)
    }
}

impl fmt::Display for Why {
    fn fmt(&self, f: &mut fmt::Formatter) -> fmt::Result {
        f.write_str(match self {
            Why::PassesSize => "something passes the declared size",
            Why::WrongKey => "key or version differs",
            Why::WrongField => "a header field breaks its rule, or staging did not give this",
            Why::Ceiling => "a ceiling is passed",
            Why::NoRoom => "a lent slice is too short",
            Why::WrongMask => "the mask section is wrong",
            Why::WrongRange => "a range is not finite or is crossed",
            Why::WrongBlock => "a block, sweep or mode byte or a Huffman image is wrong",
            Why::DoesNotFit => "a value does not fit its integer kind",
            Why::NotBlocks => "the body is not in blocks",
            Why::NoSuchBlock => "there is no block of this number",
            Why::WrongPack => "the pack breaks a rule or has no such tile",
            Why::WrongChecksum => "the checksum is not that of the bytes",
        })
    }
}

impl Refusal {
    /// The number of its reason.
    pub fn number(self) -> u32 {
        self.why.number()
    }

    /// Why, and where to look, in one sentence.
    ///
    /// ```
    /// use lerc2::{Refusal, Why};
    ///
    /// let refusal = Refusal { why: Why::WrongMask, place: 66 };
    /// let sentence = "the mask section is wrong; see the count of mask bytes at 66";
    /// assert_eq!(refusal.where_to_look(), sentence);
    /// ```
    pub fn where_to_look(self) -> String {
        format!("{}; see {}", self.why, self.what_to_see())
    }

    /// A place tells less than the call did: several readings may share one.
    fn what_to_see(self) -> String {
        match (self.why, self.place) {
            (Why::PassesSize, 0) => {
                "the length of the blob and the size at 34, or a start that was given as 0".into()
            }
            (Why::PassesSize, at) => format!(
                "what begins at {at}: a block, the sweep or mode byte, a Huffman image, a raw word, \
                 or the ranges"
            ),
            (Why::WrongKey, _) => "the key at 0 and the version at 6".into(),
            (Why::WrongField, _) => "the header's fields, in a blob from 14 to 69; \
                 or, in a publish, the answer, the spare and the list"
                .into(),
            (Why::Ceiling, _) => {
                "rows, columns, depth, side and size, in a blob from 14 to 37".into()
            }
            (Why::NoRoom, _) => "the lengths of the slices, which the header tells".into(),
            (Why::WrongMask, at) => format!("the count of mask bytes at {at}"),
            (Why::WrongRange, 0) => "the ranges that were given".into(),
            (Why::WrongRange, at) => format!("the number that begins at {at}"),
            (Why::WrongBlock, at) => {
                format!("the byte at {at}, and what follows it where a block or Huffman image begins there")
            }
            (Why::DoesNotFit, 0) => {
                "the minimum of a constant body, or the number that was given".into()
            }
            (Why::DoesNotFit, at) => format!("the block that begins at {at}"),
            (Why::NotBlocks, 0) => {
                "the count of valid pixels, and whether the ranges differ".into()
            }
            (Why::NotBlocks, at) => format!("the sweep or mode byte at {at}"),
            (Why::NoSuchBlock, _) => "the number that was asked for".into(),
            (Why::WrongPack, _) => "the 8 bytes in front, the entries behind them and each blob's \
                 header and checksum; or the number that was asked for; or, of tiles that \
                 were to be written, their order and lengths"
                .into(),
            (Why::WrongChecksum, _) => {
                "the checksum at 10 and the bytes from 14 up to the size: any may be damaged".into()
            }
        }
    }

    /// Calls an entry of the C interface with room for its place. Of what it
    /// returns 0 is acceptance.
    pub(crate) fn judge(entry: impl FnOnce(&mut [u64]) -> u32) -> Result<(), Refusal> {
        let mut place = [0; raw::PLACE];
        let returned = entry(&mut place);
        if returned == 0 {
            return Ok(());
        }
        match Why::of(returned) {
            Some(why) => Err(Refusal {
                why,
                place: place[0] as usize,
            }),
            // Proved not to come up.
            None => unreachable!("the reader returned {returned}"),
        }
    }
}

impl fmt::Display for Refusal {
    fn fmt(&self, f: &mut fmt::Formatter) -> fmt::Result {
        write!(f, "refused {} at {}", self.number(), self.place)
    }
}

impl Error for Refusal {}

#[cfg(test)]
mod tests {
    use super::{Refusal, Why};
    use std::collections::HashSet;

    fn returning(number: u32, place: u64) -> Result<(), Refusal> {
        Refusal::judge(|to| {
            to[0] = place;
            number
        })
    }

    #[test]
    fn numbers_and_back() {
        assert_eq!(returning(0, 0), Ok(()));
        for number in 1..=13 {
            let refusal = returning(number, 74).unwrap_err();
            assert_eq!((refusal.number(), refusal.place), (number, 74));
            assert_eq!(refusal.why.number(), number);
        }
    }

    #[test]
    fn any_place_is_passed_on() {
        let refusal = returning(1, u64::MAX).unwrap_err();
        assert_eq!(refusal.place, usize::MAX);
        assert_eq!(refusal.to_string(), "refused 1 at 18446744073709551615");
    }

    #[test]
    fn number_and_place_in_one_line() {
        for why in Why::ALL {
            let refusal = Refusal { why, place: 74 };
            assert_eq!(refusal.to_string(), format!("refused {} at 74", why as u32));
        }
    }

    #[test]
    fn each_reason_has_its_words() {
        let words: HashSet<String> = Why::ALL.iter().map(Why::to_string).collect();
        assert_eq!(words.len(), Why::ALL.len());
        assert_eq!(Why::WrongMask.to_string(), "the mask section is wrong");
    }

    /// The reason's words, then what to see: a place where there is one.
    #[test]
    fn where_to_look() {
        for why in Why::ALL {
            for place in [0, 66, 74] {
                let sentence = Refusal { why, place }.where_to_look();
                let (words, see) = sentence.split_once("; see ").expect("both parts");
                assert_eq!(words, why.to_string());
                let names = see.contains(&format!("at {place}"));
                let tells = [1, 6, 7, 8, 9, 10].contains(&why.number());
                assert!(names || place == 0 || !tells, "{sentence}");
            }
        }
        let block = Refusal {
            why: Why::DoesNotFit,
            place: 74,
        };
        let sentence = "a value does not fit its integer kind; see the block that begins at 74";
        assert_eq!(block.where_to_look(), sentence);
    }

    /// No two reasons are told alike, nor one with a place and without.
    #[test]
    fn sentences_differ() {
        let told = |place: usize| Why::ALL.map(|why| Refusal { why, place }.where_to_look());
        let both: HashSet<String> = told(0).into_iter().chain(told(74)).collect();
        // Those without a place of their own, 2, 3, 4, 5, 11, 12 and 13, are told once.
        assert_eq!(both.len(), 2 * Why::ALL.len() - 7);
    }
}
