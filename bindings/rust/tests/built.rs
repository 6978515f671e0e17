//! The file of a built form: its layout byte for byte, what is refused of it,
//! and that whatever words it holds have a listing.

use hollupsa::built::{Built, BuiltError, LONGEST_LINE, MAGIC, Part};
use hollupsa::names;

/// `10 GOTO 10`, built.
#[rustfmt::skip]
const GOTO: [u8; 100] = [
  // Magic and layout.
  0x50, 0x4c, 0x4f, 0x54, 0x46, 0x4f, 0x52, 0x4d, 0x01, 0x00, 0x00, 0x00,
  // Records, notes, entries, lines, units.
  0x02, 0x00, 0x00, 0x00, 0x00, 0x00, 0x00, 0x00, 0x00, 0x00, 0x00, 0x00,
  0x01, 0x00, 0x00, 0x00, 0x0a, 0x00, 0x00, 0x00,
  // The list.
  0x00, 0x00, 0x00, 0x14, 0x0a, 0x30, 0x00, 0x01, 0x00, 0x00, 0x00, 0x00,
  0x00, 0x00, 0x00, 0x00, 0x00, 0x00, 0x00, 0x00,
  0x00, 0x00, 0x00, 0x02, 0x00, 0x00, 0x00, 0x01, 0x11, 0x00, 0x00, 0x00,
  0x00, 0x00, 0x00, 0x00, 0x00, 0x00, 0x00, 0x00,
  // The line's length, the text.
  0x0a, 0x00, 0x00, 0x00,
  0x31, 0x00, 0x30, 0x00, 0x20, 0x00, 0x47, 0x00, 0x4f, 0x00, 0x54, 0x00,
  0x4f, 0x00, 0x20, 0x00, 0x31, 0x00, 0x30, 0x00,
  // The checksum.
  0x2e, 0x26, 0x21, 0xb3,
];

/// Where the words behind the head begin.
const HEAD: usize = 32;

/// A table's CRC-32, beside the one that is tried.
fn crc(bytes: &[u8]) -> u32 {
  let row = |i: u32| (0..8).fold(i, |c, _| c >> 1 ^ (0xedb88320 * (c & 1)));
  let table: Vec<u32> = (0..256).map(row).collect();
  let step = |c: u32, b: &u8| c >> 8 ^ table[(c as u8 ^ b) as usize];
  bytes.iter().fold(u32::MAX, step) ^ u32::MAX
}

/// A file of these counts and words, its checksum good.
fn file(counts: [u32; 5], words: &[u32]) -> Vec<u8> {
  let mut bytes = MAGIC.to_vec();
  let all = [1].into_iter().chain(counts).chain(words.iter().copied());
  bytes.extend(all.flat_map(u32::to_le_bytes));
  bytes.extend(crc(&bytes).to_le_bytes());
  bytes
}

/// The file with other bytes at a place, and its checksum made good.
fn with(at: usize, change: &[u8]) -> Vec<u8> {
  let mut bytes = GOTO[..GOTO.len() - 4].to_vec();
  bytes[at..at + change.len()].copy_from_slice(change);
  bytes.extend(crc(&bytes).to_le_bytes());
  bytes
}

fn refusal(bytes: &[u8]) -> BuiltError {
  Built::read(bytes).expect_err("this is refused")
}

/// One of each part, and an odd text: a no-op, a note, a name, `A%` in a line.
fn small() -> Vec<u8> {
  let record = [0x01000000, 0x01000002, 0, 0, 0];
  let note = [0x0a000000, 0x01000002, 2, 7];
  let entry = [0x32000000, 0, 1, 0x25];
  let text = [3, 0x0025_0041, 0x0000_000a];
  let words = [&record[..], &note, &entry, &text].concat();
  file([1, 1, 1, 1, 3], &words)
}

#[test]
fn the_checksum_is_the_common_one() {
  assert_eq!(crc(b"123456789"), 0xcbf43926);
}

#[test]
fn the_layout_stays() {
  let built = Built::read(&GOTO).unwrap();
  let records: Vec<_> = built.compiled.records().collect();
  let [goto, end] = records[..] else { panic!("{records:?}") };
  assert_eq!((goto.call, goto.line, goto.args), (20, 0, [0, 0, 0]));
  assert_eq!((goto.range.start, goto.range.end), (3, 10));
  assert_eq!((end.call, end.line, end.args), (2, 0, [17, 0, 0]));
  assert_eq!(built.compiled.notes().len(), 0);
  assert_eq!(built.compiled.entries().len(), 0);
  assert_eq!(built.lines, [10]);
  assert_eq!(String::from_utf16(&built.text).unwrap(), "10 GOTO 10");
  assert_eq!(built.write(), GOTO);
}

#[test]
fn every_part_comes_back() {
  let bytes = small();
  let built = Built::read(&bytes).unwrap();
  assert_eq!(built.write(), bytes);
  let note = built.compiled.notes().next().unwrap();
  assert_eq!((note.class, note.line, note.warning), (10, 0, true));
  assert_eq!(note.lost, 7);
  let entry = built.compiled.entries().next().unwrap();
  assert_eq!((entry.number, entry.start, entry.len), (0, 0, 1));
  assert_eq!(built.text, [0x41, 0x25, 0x0a]);
}

#[test]
fn nothing_at_all_comes_back() {
  let bytes = file([0; 5], &[]);
  let built = Built::read(&bytes).unwrap();
  assert_eq!(built.write(), bytes);
  assert_eq!(names::listing(&[], &[], &built.compiled), "");
}

#[test]
fn no_byte_can_be_another() {
  for good in [GOTO.to_vec(), small()] {
    for at in 0..good.len() {
      for change in 1..=255 {
        let mut bytes = good.clone();
        bytes[at] ^= change;
        assert!(Built::read(&bytes).is_err(), "{at} {change}");
      }
    }
  }
}

#[test]
fn no_length_can_be_another() {
  for good in [GOTO.to_vec(), small()] {
    for found in 0..good.len() {
      let wanted = if found < HEAD + 4 { HEAD + 4 } else { good.len() };
      let short = refusal(&good[..found]);
      assert_eq!(short, BuiltError::TooShort { found, wanted });
    }
    for more in 1..=8 {
      let wanted = good.len();
      let long = [&good[..], &vec![0; more]].concat();
      let found = long.len();
      assert_eq!(refusal(&long), BuiltError::TooLong { found, wanted });
    }
  }
}

#[test]
fn each_error_is_told_behind_a_good_checksum() {
  assert_eq!(refusal(&with(0, b"p")), BuiltError::Magic);
  assert_eq!(refusal(b"10 GOTO 10"), BuiltError::Magic);
  assert_eq!(refusal(&with(8, &[2])), BuiltError::Layout { found: 2 });
  let (wanted, found) = (0xb321262e, 0xb321262f);
  let mut bytes = GOTO;
  bytes[96] ^= 1;
  assert_eq!(refusal(&bytes), BuiltError::Checksum { found, wanted });
  for length in [9_u32, 11, 4096, u32::MAX] {
    let bytes = with(72, &length.to_le_bytes());
    assert_eq!(refusal(&bytes), BuiltError::Lines, "{length}");
  }
  let mut words = vec![3, 0x0025_0041, 0x0001_000a];
  assert_eq!(refusal(&file([0, 0, 0, 1, 3], &words)), BuiltError::Padding);
  words[2] = 0x0000_000a;
  assert!(Built::read(&file([0, 0, 0, 1, 3], &words)).is_ok());
}

#[test]
fn counts_are_bounded_before_anything_is_made() {
  for (place, part) in Part::ALL.into_iter().enumerate() {
    let most = part.most() as u32;
    let many = |found: u32| with(12 + 4 * place, &found.to_le_bytes());
    let short = refusal(&many(most));
    assert!(matches!(short, BuiltError::TooShort { .. }), "{part}: {short}");
    for found in [most + 1, 1 << 31, u32::MAX] {
      assert_eq!(refusal(&many(found)), BuiltError::TooMany { part, found });
    }
  }
}

/// The bounds that docs/BUILT.md says.
#[test]
fn the_bounds_stay() {
  let most = Part::ALL.map(Part::most);
  assert_eq!(most, [65_535, 131_072, 65_536, 21_845, 65_536]);
}

/// As many lines as a sheet can have, and the longest.
#[test]
fn the_longest_lines_are_taken() {
  let lines = |count: usize, len: usize| {
    let mut words = vec![len as u32; count];
    words.resize(count + (count * len).div_ceil(2), 0);
    file([0, 0, 0, count as u32, (count * len) as u32], &words)
  };
  for (count, len) in [(Part::Lines.most(), 3), (16, LONGEST_LINE)] {
    let bytes = lines(count, len);
    let built = Built::read(&bytes).unwrap();
    assert_eq!(built.lines, vec![len; count]);
    assert_eq!(built.write(), bytes);
  }
  let long = lines(15, LONGEST_LINE + 1);
  assert_eq!(refusal(&long), BuiltError::Lines);
}

/// What no form gives can be written, and is then refused.
#[test]
fn what_does_not_fit_is_refused_when_read() {
  let good = Built::read(&GOTO).unwrap();
  let other = Built { lines: vec![9], ..good.clone() };
  assert_eq!(refusal(&other.write()), BuiltError::Lines);
  let text = vec![0x20; Part::Units.most() + 1];
  let other = Built { text, ..good.clone() };
  let found = 65_537;
  let wanted = BuiltError::TooMany { part: Part::Units, found };
  assert_eq!(refusal(&other.write()), wanted);
  #[cfg(target_pointer_width = "64")]
  {
    let other = Built { lines: vec![(1 << 32) + 10], ..good };
    assert_eq!(refusal(&other.write()), BuiltError::Lines);
  }
}

/// The listing of these records, in a text of one line.
fn listing(mut words: Vec<u32>) -> String {
  let records = words.len() as u32 / 5;
  words.extend([4, 0x0042_0041, 0x0044_0043]);
  let built = Built::read(&file([records, 0, 0, 1, 4], &words)).unwrap();
  names::listing(&built.lines, &built.text, &built.compiled)
}

/// A piece of the text as long as the longest line is shown, a longer one not.
#[test]
fn the_longest_piece_is_shown() {
  for (len, shown) in [(LONGEST_LINE, LONGEST_LINE), (LONGEST_LINE + 1, 0)] {
    let mut words = vec![0x0400_0000, 0x0100_0000, 0, len as u32, 0];
    words.extend([LONGEST_LINE as u32, 1]);
    words.resize(words.len() + 2048, 0x0041_0041);
    let built = Built::read(&file([1, 0, 0, 2, 4096], &words)).unwrap();
    let text = names::listing(&built.lines, &built.text, &built.compiled);
    let row = text.lines().nth(1).unwrap();
    assert_eq!(row, format!("     0  string \"{}\"", "A".repeat(shown)));
  }
}

/// Each call with arguments of every size, on lines that there are not, too.
#[test]
fn any_record_has_a_row() {
  let sizes = [0, 1, 2, 255, 257, 4096, 65_536, 1 << 31, u32::MAX];
  for call in 0..=255 {
    let mut words = vec![];
    for (a, b) in sizes.iter().flat_map(|a| sizes.map(|b| (*a, b))) {
      for line in [0, 1, 0xff_ffff] {
        for range in [0, 0x0100_1003, 0x0100_3001, u32::MAX] {
          words.extend([call << 24 | line, range, a, b, a ^ b]);
        }
      }
    }
    let rows = words.len() / 5;
    assert_eq!(listing(words).lines().count(), 1 + rows, "call {call}");
  }
}

#[test]
fn what_has_no_name_is_shown_by_its_number() {
  let shown = |call: u32, a: u32| {
    let listing = listing(vec![call << 24 | 0xff_ffff, 0, a, 2, 3]);
    listing.lines().last().unwrap()[8..].to_string()
  };
  assert_eq!(shown(0, 1), "call 0 1 2 3");
  assert_eq!(shown(48, 1), "call 48 1 2 3");
  assert_eq!(shown(99, 1), "call 99 1 2 3");
  assert_eq!(shown(2, 72), "op 72, 2 operands");
  assert_eq!(shown(11, 34), "function 34, 2 arguments");
  assert_eq!(shown(13, 3), "unary 3");
  assert_eq!(shown(14, 13), "number operator 13");
  assert_eq!(shown(15, 13), "text operator 13");
  assert_eq!(shown(34, 6), "open 6");
  assert_eq!(shown(5, 7), "variable name 7");
  assert_eq!(shown(24, 8), "next name 7");
  assert_eq!(shown(3, 300), "number 2 * 2^140");
}

/// Entries and notes of every kind and class, with places outside the text.
#[test]
fn any_note_and_entry_can_be_shown() {
  let sizes = [0, 1, 5, 65_536, u32::MAX];
  for head in 0..=255 {
    for a in sizes {
      for b in sizes {
        let record = [0x05000000, 0x01000000, 0, 0, 0];
        let note = [head << 24 | (a & 0xff_ffff), b, a, b];
        let entry = [head << 24, a, b, a ^ b];
        let text = [4, 0x0042_0041, 0x0044_0043];
        let words = [&record[..], &note, &entry, &text].concat();
        let built = Built::read(&file([1, 1, 1, 1, 4], &words)).unwrap();
        let shown = names::listing(&built.lines, &built.text, &built.compiled);
        let kind = if a == 2 { "warning[" } else { "error[" };
        assert!(shown.contains(kind), "{shown}");
        if head > 13 {
          assert!(shown.contains(&format!("class {head}")), "{shown}");
        }
      }
    }
  }
}

/// A text that is cited many times is no longer shown than a line can be.
#[test]
fn a_listing_does_not_grow_with_places_that_no_form_has() {
  let records = Part::Records.most();
  let record = [0x04000000, 0x01000000, 0, 65_536, 0];
  let mut words = record.repeat(records);
  words.extend([4096; 16].map(|len: u32| len - 1));
  words.push(16);
  words.resize(words.len() + 65_536 / 2, 0x0041_0041);
  let bytes = file([records as u32, 0, 0, 17, 65_536], &words);
  let built = Built::read(&bytes).unwrap();
  let shown = names::listing(&built.lines, &built.text, &built.compiled);
  assert!(shown.len() < 100 * records, "{}", shown.len());
}

#[cfg(feature = "library")]
mod with_library {
  use super::*;
  use hollupsa::{basic, compile};
  use std::fs;

  fn build(form: &str) -> Built {
    let form = basic::read(form);
    assert!(form.is_read(), "{:?}", form.problems);
    let sheet = form.program.encode();
    let compiled = compile(&sheet, &form.units).unwrap();
    let lines = names::line_lengths(&sheet);
    Built { compiled, lines, text: form.units }
  }

  #[test]
  fn the_worked_example_is_built_so() {
    assert_eq!(build("10 GOTO 10").write(), GOTO);
  }

  #[test]
  fn the_examples_come_back() {
    let folder = concat!(env!("CARGO_MANIFEST_DIR"), "/../../examples");
    let mut tried = 0;
    for entry in fs::read_dir(folder).unwrap() {
      let path = entry.unwrap().path();
      if path.extension().is_none_or(|end| end != "bas") {
        continue;
      }
      let built = build(&fs::read_to_string(&path).unwrap());
      let bytes = built.write();
      assert_eq!(Built::read(&bytes).unwrap(), built, "{}", path.display());
      for at in (0..bytes.len()).step_by(1 + bytes.len() / 500) {
        let mut bytes = bytes.clone();
        bytes[at] ^= 0x10;
        assert!(Built::read(&bytes).is_err(), "{} {at}", path.display());
        assert!(Built::read(&bytes[..at]).is_err(), "{} {at}", path.display());
      }
      tried += 1;
    }
    assert!(tried > 0, "there are no examples in {folder}");
  }
}
