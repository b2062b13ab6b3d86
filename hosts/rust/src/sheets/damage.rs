//! Damage to the text of a sheet: one line spoiled by plan, for refusals 4 to 7, or bytes and lines changed without
//! one, where only the two implementations can tell what must come of it.

use super::chance::Chance;
use super::draft::join;
use super::texts::{bad, kind};
use super::valid::{draft, Size};
use super::Aim;

const LONGEST_SHEET: usize = 65_536; // bytes

fn valid_lines(chance: &mut Chance) -> Vec<Vec<u8>> {
    let size = Size::any(chance);
    draft(chance, &size).lines()
}

/// A line of the sheet, counted from 1: the first rows and the last more often, line 1 seldom.
pub fn line(chance: &mut Chance, lines: &[Vec<u8>]) -> usize {
    if lines.len() < 2 || chance.one_in(40) {
        return 1;
    }
    2 + chance.place(lines.len() - 1)
}

/// Spoils one line and says what must come of it, if the sheet was valid before.
pub fn spoil(chance: &mut Chance, lines: &mut Vec<Vec<u8>>, line: usize) -> Aim {
    if line == 1 {
        lines[0] = bad_header(chance);
        return if lines[0].starts_with(b"BRM;") { Aim::Refused(4, 1) } else { Aim::Refused(3, 1) };
    }
    let mut fields: Vec<&[u8]> = lines[line - 1].split(|&byte| byte == b';').collect();
    if fields.len() < 2 || chance.one_in(4) {
        return misshape(chance, lines, line);
    }
    let place = 1 + chance.below(fields.len() as u64 - 1) as usize;
    let (text, refusal) = bad(chance, kind(&fields, place), fields[place]);
    fields[place] = &text;
    lines[line - 1] = fields.join(&b';');
    Aim::Refused(refusal, line as u64)
}

/// Gives a line the wrong shape, or puts one in the wrong place: refusal 5.
fn misshape(chance: &mut Chance, lines: &mut Vec<Vec<u8>>, line: usize) -> Aim {
    let at = line - 1;
    let mut fields: Vec<&[u8]> = lines[at].split(|&byte| byte == b';').collect();
    let place = chance.place(fields.len());
    let letters: [&[u8]; 12] = [b"", b" ", b"X", b"B", b"c", b"t", b"CC", b"TT", b" S", b"O ", b"\0", b"\r"];
    match chance.below(9) {
        0 => drop(fields.remove(place)),
        1 => fields.insert(place, *chance.pick(&[b"".as_slice(), b"0", b"G"])),
        2 => fields.push(b""),
        3 if chance.one_in(2) => {
            // Another row's letter: no two kinds of row have as many fields.
            let own = fields[0];
            let others: Vec<&[u8]> = b"DCOST".chunks(1).filter(|letter| *letter != own).collect();
            fields[0] = *chance.pick(&others);
        }
        3 => fields[0] = *chance.pick(&letters),
        4 => fields = vec![*chance.pick(&letters)],
        5 => {
            // A second D row, here or further down.
            let to = chance.between(line as i64 + 1, lines.len() as i64 + 1) as usize;
            lines.insert(to - 1, lines[1].clone());
            return Aim::Refused(5, to as u64);
        }
        6 if line < lines.len() => {
            // Two lines become one.
            let next = lines.remove(line);
            lines[at].extend_from_slice(&next);
            return Aim::Refused(5, line as u64);
        }
        7 => {
            // Some row again at the end, which is wrong for one of an earlier section.
            let section = |row: &[u8]| b"DCOST".iter().position(|letter| row.first() == Some(letter));
            let row = lines[chance.place(lines.len())].clone();
            let earlier = section(&row) < section(&lines[lines.len() - 1]);
            lines.push(row);
            return if earlier { Aim::Refused(5, lines.len() as u64) } else { Aim::Open };
        }
        _ => {
            // A line broken in two behind its letter.
            let cut = lines[at].iter().position(|&byte| byte == b';').unwrap_or(0);
            let rest = lines[at].split_off(cut);
            lines.insert(line, rest.get(1..).unwrap_or_default().to_vec());
            return Aim::Refused(5, line as u64);
        }
    }
    lines[at] = fields.join(&b';');
    Aim::Refused(5, line as u64)
}

/// A first line that is not `BRM;1`.
fn bad_header(chance: &mut Chance) -> Vec<u8> {
    let no_mark: [&[u8]; 12] = [
        b"",
        b"B",
        b"BRM",
        b"BRM1",
        b"brm;1",
        b"BRN;1",
        b"BRM,1",
        b" BRM;1",
        b"\xef\xbb\xbfBRM;1",
        b"D;20190612",
        b";BRM;1",
        b"BMR;1",
    ];
    let no_version: [&[u8]; 12] = [b"", b"2", b"01", b"1;", b"1 ", b"1\r", b" 1", b"11", b"+1", b"1\0", b"65537", b"0"];
    if chance.one_in(2) {
        return chance.pick(&no_mark).to_vec();
    }
    [b"BRM;", *chance.pick(&no_version)].concat()
}

/// A sheet with a bad first line, or one that ends within its first lines.
pub fn header(chance: &mut Chance) -> (Vec<u8>, Aim) {
    let mut lines = valid_lines(chance);
    if chance.one_in(2) {
        let aim = spoil(chance, &mut lines, 1);
        return (join(&lines), aim);
    }
    let mut sheet = join(&lines);
    sheet.truncate(chance.below(20) as usize);
    let aim = match sheet.len() {
        0..=3 => Aim::Refused(3, 1),
        4 | 5 => Aim::Refused(4, 1),
        6..=16 => Aim::Refused(5, 2),
        _ => Aim::Open,
    };
    (sheet, aim)
}

/// More bytes than a sheet may have, or exactly as many, which is judged by its lines.
pub fn too_long(chance: &mut Chance) -> (Vec<u8>, Aim) {
    let mut sheet = join(&valid_lines(chance));
    let length = match chance.below(4) {
        0 => LONGEST_SHEET,
        1 => LONGEST_SHEET + 1,
        _ => LONGEST_SHEET + 1 + chance.below(5_000) as usize,
    };
    if chance.one_in(2) {
        let unit = if chance.one_in(2) { sheet.clone() } else { vec![*chance.pick(b"\n;0T")] };
        while sheet.len() < length {
            sheet.extend_from_slice(&unit);
        }
        sheet.truncate(length);
    } else {
        // One line grows instead, the first among them.
        let at = sheet.iter().position(|&byte| byte == b';').unwrap_or(0);
        let grown = length - sheet.len();
        let byte = *chance.pick(b"01;");
        sheet.splice(at + 1..at + 1, std::iter::repeat_n(byte, grown));
    }
    let aim = if sheet.len() > LONGEST_SHEET { Aim::Refused(2, 0) } else { Aim::Open };
    (sheet, aim)
}

/// Bytes by chance, after a good beginning or none.
pub fn noise(chance: &mut Chance) -> (Vec<u8>, Aim) {
    let beginnings: [&[u8]; 5] =
        [b"", b"BRM;1\n", b"BRM;1\nD;20190612\n", b"BRM;1\nD;20190612\nC;6;G;32500;355\n", b"BRM;"];
    let mut sheet = chance.pick(&beginnings).to_vec();
    let alphabet = b"BRMDCOSTGIFP;;;;\n\n0123456789-";
    let plain = chance.one_in(2);
    for _ in 0..chance.below(300) {
        let byte = if plain { *chance.pick(alphabet) } else { chance.below(256) as u8 };
        sheet.push(byte);
    }
    (sheet, Aim::Open)
}

/// A valid sheet with bytes or lines changed by chance.
pub fn unplanned(chance: &mut Chance) -> (Vec<u8>, Aim) {
    let mut lines = valid_lines(chance);
    if chance.one_in(3) {
        for _ in 0..=chance.below(2) {
            move_lines(chance, &mut lines);
        }
        return (join(&lines), Aim::Open);
    }
    let mut sheet = join(&lines);
    match chance.below(8) {
        0 => {
            let line = lines.len() as u64;
            sheet.pop(); // the last LF
            return (sheet, Aim::Refused(5, line));
        }
        1 => {
            sheet.push(b'\n');
            return (sheet, Aim::Refused(5, lines.len() as u64 + 1));
        }
        2 => {
            lines.iter_mut().for_each(|line| line.push(b'\r'));
            return (join(&lines), Aim::Refused(4, 1));
        }
        3 => sheet.truncate(chance.below(sheet.len() as u64) as usize),
        _ => {
            for _ in 0..=chance.below(3) {
                change_byte(chance, &mut sheet);
            }
        }
    }
    (sheet, Aim::Open)
}

/// Two lines change places, or one comes twice, is dropped, or stands elsewhere.
fn move_lines(chance: &mut Chance, lines: &mut Vec<Vec<u8>>) {
    let from = chance.below(lines.len() as u64) as usize;
    let to = if chance.one_in(2) { (from + 1).min(lines.len() - 1) } else { chance.below(lines.len() as u64) as usize };
    match chance.below(4) {
        0 => lines.swap(from, to),
        1 => lines.insert(to, lines[from].clone()),
        2 if lines.len() > 1 => drop(lines.remove(from)),
        _ => {
            let line = lines.remove(from);
            lines.insert(to.min(lines.len()), line);
        }
    }
}

fn change_byte(chance: &mut Chance, sheet: &mut Vec<u8>) {
    if sheet.is_empty() {
        return;
    }
    let at = chance.below(sheet.len() as u64) as usize;
    let byte = if chance.one_in(2) { *chance.pick(b"0123456789;\nCOSTDRPGIFABZ- ") } else { chance.below(256) as u8 };
    match chance.below(4) {
        0 => sheet[at] ^= 1 << chance.below(8),
        1 => sheet[at] = byte,
        2 => drop(sheet.remove(at)),
        _ => sheet.insert(at, byte),
    }
}
