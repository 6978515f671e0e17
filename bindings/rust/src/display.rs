//! A line of a form as a terminal shows it, with a range marked under it.

use crate::tree::Range;

/// Letters that take two columns: the wide and full-width ones of Unicode's
/// EastAsianWidth.txt, a first and a last one each.
const WIDE: [(u32, u32); 60] = [
  (0x1100, 0x115f),
  (0x231a, 0x231b),
  (0x2329, 0x232a),
  (0x23e9, 0x23ec),
  (0x23f0, 0x23f0),
  (0x23f3, 0x23f3),
  (0x25fd, 0x25fe),
  (0x2614, 0x2615),
  (0x2648, 0x2653),
  (0x267f, 0x267f),
  (0x2693, 0x2693),
  (0x26a1, 0x26a1),
  (0x26aa, 0x26ab),
  (0x26bd, 0x26be),
  (0x26c4, 0x26c5),
  (0x26ce, 0x26ce),
  (0x26d4, 0x26d4),
  (0x26ea, 0x26ea),
  (0x26f2, 0x26f3),
  (0x26f5, 0x26f5),
  (0x26fa, 0x26fa),
  (0x26fd, 0x26fd),
  (0x2705, 0x2705),
  (0x270a, 0x270b),
  (0x2728, 0x2728),
  (0x274c, 0x274c),
  (0x274e, 0x274e),
  (0x2753, 0x2755),
  (0x2757, 0x2757),
  (0x2795, 0x2797),
  (0x27b0, 0x27b0),
  (0x27bf, 0x27bf),
  (0x2b1b, 0x2b1c),
  (0x2b50, 0x2b50),
  (0x2b55, 0x2b55),
  (0x2e80, 0x303e),
  (0x3041, 0x3247),
  (0x3250, 0x4dbf),
  (0x4e00, 0xa4cf),
  (0xa960, 0xa97f),
  (0xac00, 0xd7a3),
  (0xf900, 0xfaff),
  (0xfe10, 0xfe19),
  (0xfe30, 0xfe6f),
  (0xff01, 0xff60),
  (0xffe0, 0xffe6),
  (0x16fe0, 0x18cff),
  (0x1b000, 0x1b2ff),
  (0x1f004, 0x1f004),
  (0x1f0cf, 0x1f0cf),
  (0x1f18e, 0x1f18e),
  (0x1f191, 0x1f19a),
  (0x1f200, 0x1f320),
  (0x1f32d, 0x1f4fc),
  (0x1f4ff, 0x1f64f),
  (0x1f680, 0x1f6d7),
  (0x1f7e0, 0x1f7eb),
  (0x1f90c, 0x1f9ff),
  (0x1fa70, 0x1faff),
  (0x20000, 0x3fffd),
];

/// Letters of the first 65,536 that take no column of their own, the marks on
/// the letter before: the classes Mn and Me of Unicode 14.0.0.
#[rustfmt::skip]
const MARKS: [(u32, u32); 209] = [
  (0x0300, 0x036f), (0x0483, 0x0489), (0x0591, 0x05bd), (0x05bf, 0x05bf),
  (0x05c1, 0x05c2), (0x05c4, 0x05c5), (0x05c7, 0x05c7), (0x0610, 0x061a),
  (0x064b, 0x065f), (0x0670, 0x0670), (0x06d6, 0x06dc), (0x06df, 0x06e4),
  (0x06e7, 0x06e8), (0x06ea, 0x06ed), (0x0711, 0x0711), (0x0730, 0x074a),
  (0x07a6, 0x07b0), (0x07eb, 0x07f3), (0x07fd, 0x07fd), (0x0816, 0x0819),
  (0x081b, 0x0823), (0x0825, 0x0827), (0x0829, 0x082d), (0x0859, 0x085b),
  (0x0898, 0x089f), (0x08ca, 0x08e1), (0x08e3, 0x0902), (0x093a, 0x093a),
  (0x093c, 0x093c), (0x0941, 0x0948), (0x094d, 0x094d), (0x0951, 0x0957),
  (0x0962, 0x0963), (0x0981, 0x0981), (0x09bc, 0x09bc), (0x09c1, 0x09c4),
  (0x09cd, 0x09cd), (0x09e2, 0x09e3), (0x09fe, 0x09fe), (0x0a01, 0x0a02),
  (0x0a3c, 0x0a3c), (0x0a41, 0x0a42), (0x0a47, 0x0a48), (0x0a4b, 0x0a4d),
  (0x0a51, 0x0a51), (0x0a70, 0x0a71), (0x0a75, 0x0a75), (0x0a81, 0x0a82),
  (0x0abc, 0x0abc), (0x0ac1, 0x0ac5), (0x0ac7, 0x0ac8), (0x0acd, 0x0acd),
  (0x0ae2, 0x0ae3), (0x0afa, 0x0aff), (0x0b01, 0x0b01), (0x0b3c, 0x0b3c),
  (0x0b3f, 0x0b3f), (0x0b41, 0x0b44), (0x0b4d, 0x0b4d), (0x0b55, 0x0b56),
  (0x0b62, 0x0b63), (0x0b82, 0x0b82), (0x0bc0, 0x0bc0), (0x0bcd, 0x0bcd),
  (0x0c00, 0x0c00), (0x0c04, 0x0c04), (0x0c3c, 0x0c3c), (0x0c3e, 0x0c40),
  (0x0c46, 0x0c48), (0x0c4a, 0x0c4d), (0x0c55, 0x0c56), (0x0c62, 0x0c63),
  (0x0c81, 0x0c81), (0x0cbc, 0x0cbc), (0x0cbf, 0x0cbf), (0x0cc6, 0x0cc6),
  (0x0ccc, 0x0ccd), (0x0ce2, 0x0ce3), (0x0d00, 0x0d01), (0x0d3b, 0x0d3c),
  (0x0d41, 0x0d44), (0x0d4d, 0x0d4d), (0x0d62, 0x0d63), (0x0d81, 0x0d81),
  (0x0dca, 0x0dca), (0x0dd2, 0x0dd4), (0x0dd6, 0x0dd6), (0x0e31, 0x0e31),
  (0x0e34, 0x0e3a), (0x0e47, 0x0e4e), (0x0eb1, 0x0eb1), (0x0eb4, 0x0ebc),
  (0x0ec8, 0x0ecd), (0x0f18, 0x0f19), (0x0f35, 0x0f35), (0x0f37, 0x0f37),
  (0x0f39, 0x0f39), (0x0f71, 0x0f7e), (0x0f80, 0x0f84), (0x0f86, 0x0f87),
  (0x0f8d, 0x0f97), (0x0f99, 0x0fbc), (0x0fc6, 0x0fc6), (0x102d, 0x1030),
  (0x1032, 0x1037), (0x1039, 0x103a), (0x103d, 0x103e), (0x1058, 0x1059),
  (0x105e, 0x1060), (0x1071, 0x1074), (0x1082, 0x1082), (0x1085, 0x1086),
  (0x108d, 0x108d), (0x109d, 0x109d), (0x135d, 0x135f), (0x1712, 0x1714),
  (0x1732, 0x1733), (0x1752, 0x1753), (0x1772, 0x1773), (0x17b4, 0x17b5),
  (0x17b7, 0x17bd), (0x17c6, 0x17c6), (0x17c9, 0x17d3), (0x17dd, 0x17dd),
  (0x180b, 0x180d), (0x180f, 0x180f), (0x1885, 0x1886), (0x18a9, 0x18a9),
  (0x1920, 0x1922), (0x1927, 0x1928), (0x1932, 0x1932), (0x1939, 0x193b),
  (0x1a17, 0x1a18), (0x1a1b, 0x1a1b), (0x1a56, 0x1a56), (0x1a58, 0x1a5e),
  (0x1a60, 0x1a60), (0x1a62, 0x1a62), (0x1a65, 0x1a6c), (0x1a73, 0x1a7c),
  (0x1a7f, 0x1a7f), (0x1ab0, 0x1ace), (0x1b00, 0x1b03), (0x1b34, 0x1b34),
  (0x1b36, 0x1b3a), (0x1b3c, 0x1b3c), (0x1b42, 0x1b42), (0x1b6b, 0x1b73),
  (0x1b80, 0x1b81), (0x1ba2, 0x1ba5), (0x1ba8, 0x1ba9), (0x1bab, 0x1bad),
  (0x1be6, 0x1be6), (0x1be8, 0x1be9), (0x1bed, 0x1bed), (0x1bef, 0x1bf1),
  (0x1c2c, 0x1c33), (0x1c36, 0x1c37), (0x1cd0, 0x1cd2), (0x1cd4, 0x1ce0),
  (0x1ce2, 0x1ce8), (0x1ced, 0x1ced), (0x1cf4, 0x1cf4), (0x1cf8, 0x1cf9),
  (0x1dc0, 0x1dff), (0x20d0, 0x20f0), (0x2cef, 0x2cf1), (0x2d7f, 0x2d7f),
  (0x2de0, 0x2dff), (0x302a, 0x302d), (0x3099, 0x309a), (0xa66f, 0xa672),
  (0xa674, 0xa67d), (0xa69e, 0xa69f), (0xa6f0, 0xa6f1), (0xa802, 0xa802),
  (0xa806, 0xa806), (0xa80b, 0xa80b), (0xa825, 0xa826), (0xa82c, 0xa82c),
  (0xa8c4, 0xa8c5), (0xa8e0, 0xa8f1), (0xa8ff, 0xa8ff), (0xa926, 0xa92d),
  (0xa947, 0xa951), (0xa980, 0xa982), (0xa9b3, 0xa9b3), (0xa9b6, 0xa9b9),
  (0xa9bc, 0xa9bd), (0xa9e5, 0xa9e5), (0xaa29, 0xaa2e), (0xaa31, 0xaa32),
  (0xaa35, 0xaa36), (0xaa43, 0xaa43), (0xaa4c, 0xaa4c), (0xaa7c, 0xaa7c),
  (0xaab0, 0xaab0), (0xaab2, 0xaab4), (0xaab7, 0xaab8), (0xaabe, 0xaabf),
  (0xaac1, 0xaac1), (0xaaec, 0xaaed), (0xaaf6, 0xaaf6), (0xabe5, 0xabe5),
  (0xabe8, 0xabe8), (0xabed, 0xabed), (0xfb1e, 0xfb1e), (0xfe00, 0xfe0f),
  (0xfe20, 0xfe2f),
];

/// What a tab is shown as: one column, wherever it stands.
pub const TAB: char = '⇥';

/// What stands for a letter that would disturb the terminal.
const HIDDEN: char = '␦';

/// The mark at a text's begin.
pub const BOM: char = '\u{feff}';

/// Whether a letter lies in one of the ranges, which rise.
fn lies_in(ranges: &[(u32, u32)], c: char) -> bool {
  let c = c as u32;
  let at = ranges.partition_point(|&(_, last)| last < c);
  ranges.get(at).is_some_and(|&(first, _)| first <= c)
}

/// The columns that a letter takes on a terminal, as [`shown`] shows it.
fn width(c: char) -> usize {
  if c.is_ascii() {
    return 1;
  }
  match shown(c) {
    None => 0,
    Some(c) if lies_in(&MARKS, c) => 0,
    Some(c) if lies_in(&WIDE, c) => 2,
    Some(_) => 1,
  }
}

/// What a letter is shown as: a tab and the other controls as a sign, marks
/// without a shape of their own not at all.
fn shown(c: char) -> Option<char> {
  match c {
    '\t' => Some(TAB),
    '\0'..='\u{1f}' => char::from_u32(0x2400 + c as u32),
    '\u{7f}' => Some('␡'),
    BOM | '\u{200b}'..='\u{200d}' | '\u{2060}' => None,
    '\u{fe00}'..='\u{fe0f}' => None,
    '\u{80}'..='\u{9f}'
    | '\u{ad}'
    | '\u{61c}'
    | '\u{200e}'
    | '\u{200f}'
    | '\u{2028}'..='\u{202e}'
    | '\u{2061}'..='\u{206f}' => Some(HIDDEN),
    _ => Some(c),
  }
}

/// A text of one line that a terminal can be given.
pub fn clean(text: &str) -> String {
  text.chars().filter_map(shown).collect()
}

/// A line without its end.
pub fn without_end(line: &str) -> &str {
  let Some(line) = line.strip_suffix('\n') else {
    return line;
  };
  line.strip_suffix('\r').unwrap_or(line)
}

/// The letters before a place in units.
pub fn letters_before(line: &str, units: usize) -> usize {
  let mut before = 0;
  let starts = line.chars().map(|c| {
    let start = before;
    before += c.len_utf16();
    start
  });
  starts.take_while(|start| *start < units).count()
}

/// A line as shown, and carets for the line under it.
#[derive(Clone, PartialEq, Eq, Debug)]
pub struct Marked {
  pub line: String,
  pub carets: String,
}

/// What stands where a line is cut.
const CUT: &str = "..";

/// So much of a line is shown before a range, where the line is cut.
const BEFORE: usize = 24;

/// A line with a range of its units marked. An empty range has one caret, so
/// has one behind the line's end. Where the line is wider than `columns`, a
/// piece of it around the range's begin is shown.
pub fn marked(line: &str, range: Range, columns: usize) -> Marked {
  let Near { cells, before, behind } = Near::of(line, range.start, columns);
  let all: usize = cells.iter().map(|cell| cell.width).sum();
  let first = cells.iter().position(|cell| cell.end > range.start);
  let first = first.unwrap_or(cells.len());
  let (from, to) = match !before && !behind && all <= columns {
    true => (0, cells.len()),
    false => window(&cells, first, columns),
  };
  let is_cut = before || from > 0;
  let mut line = if is_cut { CUT.to_string() } else { String::new() };
  let left = &cells[from..first.clamp(from, to)];
  let blanks = line.len() + left.iter().map(|cell| cell.width).sum::<usize>();
  line.extend(cells[from..to].iter().filter_map(|cell| cell.shown));
  line.push_str(if behind || to < cells.len() { CUT } else { "" });
  let under = cells[first.clamp(from, to)..to].iter();
  let under = under.take_while(|cell| cell.start < range.end);
  let carets: usize = under.map(|cell| cell.width).sum();
  let carets = " ".repeat(blanks) + &"^".repeat(carets.max(1));
  Marked { line, carets }
}

/// The letters of a line around a place, as far as they may be shown, and
/// whether there are others before and behind them.
struct Near {
  cells: Vec<Cell>,
  before: bool,
  behind: bool,
}

impl Near {
  fn of(line: &str, place: usize, columns: usize) -> Self {
    // Letters without a width are among them.
    let far = columns.saturating_mul(4);
    let (low, high) = (place.saturating_sub(far), place.saturating_add(far));
    let mut near = Self { cells: vec![], before: false, behind: false };
    let mut start = 0;
    for c in without_end(line).chars() {
      let end = start + c.len_utf16();
      if start < low {
        near.before = true;
      } else if start < high {
        let (shown, width) = (shown(c), width(c));
        near.cells.push(Cell { start, end, shown, width });
      } else {
        near.behind = true;
        break;
      }
      start = end;
    }
    near
  }
}

/// A letter of a line: its units, what is shown of it and how wide that is.
struct Cell {
  start: usize,
  end: usize,
  shown: Option<char>,
  width: usize,
}

/// The cells of a piece that is at most `columns` wide, with its cuts, and in
/// which `first` stands, after some of what is before it.
fn window(cells: &[Cell], first: usize, columns: usize) -> (usize, usize) {
  let room = columns.saturating_sub(2 * CUT.len());
  // Near the line's end more of what is before is shown.
  let behind: usize = cells[first..].iter().map(|cell| cell.width).sum();
  let most = room.saturating_sub(2);
  let wanted = BEFORE.max(room.saturating_sub(behind + 1)).min(most);
  let mut from = first;
  let mut taken = 0;
  while from > 0 && taken + cells[from - 1].width <= wanted {
    from -= 1;
    taken += cells[from].width;
  }
  let mut to = first;
  while to < cells.len() && taken + cells[to].width <= room {
    taken += cells[to].width;
    to += 1;
  }
  (from, to)
}

#[cfg(test)]
mod tests {
  use super::*;

  fn of(line: &str, start: usize, end: usize) -> (String, String) {
    let Marked { line, carets } = marked(line, Range { start, end }, 40);
    (line, carets)
  }

  fn pair(line: &str, carets: &str) -> (String, String) {
    (line.to_string(), carets.to_string())
  }

  #[test]
  fn wide_letters_take_two_columns() {
    assert_eq!(of("A松B\n", 1, 2), pair("A松B", " ^^"));
    assert_eq!(of("A松B", 2, 3), pair("A松B", "   ^"));
    assert_eq!(of("A🌲B", 3, 4), pair("A🌲B", "   ^"));
  }

  #[test]
  fn tabs_and_controls_are_signs_of_one_column() {
    assert_eq!(of("\tA\u{1b}B\r\n", 3, 4), pair("⇥A␛B", "   ^"));
    assert_eq!(of("A\u{202e}B", 2, 3), pair("A␦B", "  ^"));
    assert_eq!(width('\t'), 1);
  }

  #[test]
  fn marks_take_no_column() {
    assert_eq!(of("\u{feff}AB", 2, 3), pair("AB", " ^"));
    assert_eq!(of("e\u{301}B", 2, 3), pair("e\u{301}B", " ^"));
  }

  /// Letters of Hangul, of Thai and Devanagari with their marks, controls.
  #[test]
  fn each_letter_has_its_width() {
    for (letters, wanted) in [
      ("\u{ac00}\u{acff}\u{ad00}\u{d7a3}", 2),
      ("\u{abff}\u{d7a4}\u{e01}\u{905}", 1),
      ("\u{e31}\u{e34}\u{e4e}\u{902}\u{93c}\u{941}\u{94d}", 0),
      ("\u{1}\u{7f}\u{80}\u{9b}\u{9f}\u{ad}\u{202e}", 1),
    ] {
      for letter in letters.chars() {
        assert_eq!(width(letter), wanted, "{:x}", letter as u32);
      }
    }
    assert_eq!(clean("\u{80}\u{9b}\u{9f}\u{a0}"), "␦␦␦\u{a0}");
  }

  /// A table is searched by halves.
  #[test]
  fn the_tables_rise() {
    for table in [&WIDE[..], &MARKS] {
      assert!(table.iter().all(|(first, last)| first <= last));
      assert!(table.windows(2).all(|pair| pair[0].1 < pair[1].0));
    }
  }

  #[test]
  fn an_empty_range_has_one_caret() {
    assert_eq!(of("AB", 1, 1), pair("AB", " ^"));
    assert_eq!(of("AB\n", 2, 2), pair("AB", "  ^"));
    assert_eq!(of("AB\n", 9, 12), pair("AB", "  ^"));
    assert_eq!(of("", 0, 0), pair("", "^"));
  }

  #[test]
  fn long_lines_are_cut_around_the_range() {
    let line = "0123456789".repeat(20);
    for start in 0..200 {
      let (shown, carets) = of(&line, start, start + 1);
      assert!(shown.len() <= 40, "{shown}");
      let at = carets.find('^').unwrap();
      assert_eq!(shown.as_bytes()[at], line.as_bytes()[start], "{start}");
      assert_eq!(carets.len(), at + 1);
      assert_eq!(shown.starts_with(".."), start > 24, "{start}");
    }
    let (shown, carets) = of(&line, 190, 200);
    assert!(shown.ends_with("789") && carets.ends_with(&"^".repeat(10)));
    let (shown, carets) = of(&line, 0, 200);
    assert_eq!((shown.len(), carets.len()), (38, 36));
    let (shown, carets) = of(&line, 200, 200);
    assert_eq!(shown.len() + 1, carets.len());
  }

  #[test]
  fn letters_are_counted_whole() {
    assert_eq!(letters_before("A🌲B", 3), 2);
    assert_eq!(letters_before("A🌲B", 9), 3);
    assert_eq!(letters_before("A🌲B", 0), 0);
  }
}
