//! lines TABLES FONT ROOM < cases: the line of each case, as tools/test_library reads it. FONT is JSON, or where TABLES is -
//! a font file. The room is the wrapper's own.

use kuspveli::{ClusterLevel, Direction, Fault, Feature, Flags, Font, Glyphs, Slice, Tables, Tag, Text};
use std::fmt::Write;
use std::{env, error::Error, fs, io};

fn number(word: &str) -> Result<u32, Box<dyn Error>> {
    Ok(word.parse()?)
}

fn direction(word: &str) -> Direction {
    match word {
        "4" => Direction::LeftToRight,
        "5" => Direction::RightToLeft,
        "6" => Direction::TopToBottom,
        "7" => Direction::BottomToTop,
        _ => Direction::Guess,
    }
}

fn cluster_level(word: &str) -> ClusterLevel {
    match word {
        "1" => ClusterLevel::MonotoneCharacters,
        "2" => ClusterLevel::Characters,
        "3" => ClusterLevel::Graphemes,
        _ => ClusterLevel::MonotoneGraphemes,
    }
}

fn features(word: &str) -> Result<Vec<Feature>, Box<dyn Error>> {
    let mut found = Vec::new();
    for part in word.split(',').filter(|part| *part != "-") {
        let numbers = part.split(':').map(number).collect::<Result<Vec<_>, _>>()?;
        let [tag, value, start, end] = numbers[..] else {
            return Err(format!("no feature: {part}").into());
        };
        found.push(Feature {
            tag: Tag::from_number(tag),
            value,
            start,
            end,
        });
    }
    Ok(found)
}

fn text(word: &str) -> Result<String, Box<dyn Error>> {
    let digits = if word == "-" { "" } else { word };
    let bytes = (0..digits.len() / 2)
        .map(|k| u8::from_str_radix(&digits[2 * k..2 * k + 2], 16))
        .collect::<Result<Vec<_>, _>>()?;
    Ok(String::from_utf8(bytes)?)
}

fn line(glyphs: Glyphs<'_>) -> Result<String, Box<dyn Error>> {
    let mut line = String::new();
    for (k, (info, at)) in glyphs.infos.iter().zip(glyphs.positions).enumerate() {
        write!(line, "{}{}={}", if k > 0 { "|" } else { "" }, info.codepoint, info.cluster)?;
        if at.x_offset != 0 || at.y_offset != 0 {
            write!(line, "@{},{}", at.x_offset, at.y_offset)?;
        }
        write!(line, "+{}", at.x_advance)?;
        if at.y_advance != 0 {
            write!(line, ",{}", at.y_advance)?;
        }
        if info.mask != 0 {
            write!(line, "#{:x}", info.mask)?;
        }
    }
    Ok(line)
}

fn slices_line(slices: Result<Vec<Slice>, Fault>) -> String {
    match slices {
        Ok(slices) if !slices.is_empty() => {
            let ends: Vec<String> = slices.iter().map(|slice| format!("{} {}", slice.start, slice.end)).collect();
            ends.join(",")
        }
        Ok(_) | Err(Fault::NoSlices) => "no slices".to_owned(),
        Err(fault) => fault.to_string(),
    }
}

fn font(tables: &str, font: &str) -> Result<Font, Box<dyn Error>> {
    let read = fs::read(font)?;
    let first = match tables {
        "-" => Font::from_slice(&read, 0)?,
        tables => Font::with_tables(&Tables::new(&fs::read(tables)?)?, &read)?,
    };
    Ok(first.another()?)
}

fn main() -> Result<(), Box<dyn Error>> {
    let words: Vec<String> = env::args().collect();
    let mut font = font(&words[1], &words[2])?;
    for case in io::stdin().lines() {
        let case = case?;
        let parts: Vec<&str> = case.split(' ').collect();
        let own = text(parts[6])?;
        let text = Text {
            direction: direction(parts[0]),
            script: match number(parts[1])? {
                0 => None,
                number => Some(Tag::from_number(number)),
            },
            flags: Flags::from_number(number(parts[2])?).ok_or("no flags")?,
            cluster_level: cluster_level(parts[3]),
            language: if parts[4] == "-" { "" } else { parts[4] },
            features: &features(parts[5])?,
            ..Text::new(&own)
        };
        match font.shape(&text) {
            Ok(glyphs) => print!("{};", line(glyphs)?),
            Err(fault) => {
                println!("{fault}");
                continue;
            }
        }
        println!("{}", slices_line(font.slices(&own)));
    }
    Ok(())
}
