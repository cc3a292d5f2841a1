//! Answers questions, one line each way: fields in hex, parted by spaces.
use std::io::{BufRead, Write};

fn hex(bytes: &[u8]) -> String {
    let mut out = String::from("x");
    for b in bytes { out.push_str(&format!("{b:02x}")); }
    out
}
fn unhex(word: &str) -> Vec<u8> {
    let w = &word.as_bytes()[1..];
    w.chunks(2).map(|p| u8::from_str_radix(std::str::from_utf8(p).unwrap(), 16).unwrap()).collect()
}
fn text(word: &str) -> String { String::from_utf8(unhex(word)).unwrap() }
fn option(one: Option<&str>) -> String { one.map_or("-".into(), |s| hex(s.as_bytes())) }

fn regexes(words: &[&str]) -> String {
    let pattern = text(words[1]);
    let re = match regex::Regex::new(&pattern) { Ok(re) => re, Err(regex::Error::CompiledTooBig(_)) => return "large".into(), Err(_) => return "bad".into() };
    let value = text(words[2]);
    match words[0] {
        "matches" => {
            let mut out = String::from("ok");
            for caps in re.captures_iter(&value) {
                out.push_str(" |");
                for g in caps.iter() {
                    out.push_str(&g.map_or(" -".into(), |m| format!(" {}:{}", m.start(), m.end())));
                }
            }
            out
        }
        "names" => {
            let mut out = String::from("ok");
            for n in re.capture_names() { out.push(' '); out.push_str(&option(n)); }
            out
        }
        "split" => {
            let limit: usize = words[3].parse().unwrap();
            let mut out = String::from("ok");
            for p in re.splitn(&value, limit) { out.push(' '); out.push_str(&hex(p.as_bytes())); }
            out
        }
        "replace" => {
            let count: i64 = words[4].parse().unwrap();
            let with = text(words[3]);
            let told = if count == 0 { value.clone() } else if count < 0 { re.replace_all(&value, with.as_str()).into_owned() }
                else { re.replacen(&value, count as usize, with.as_str()).into_owned() };
            format!("ok {}", hex(told.as_bytes()))
        }
        _ => "unknown".into(),
    }
}

fn answer(line: &str) -> String {
    let words: Vec<&str> = line.split(' ').collect();
    match words[0] {
        "csv" => {
            let delimiter = unhex(words[2])[0];
            let bytes = unhex(words[1]);
            let mut reader = csv::ReaderBuilder::new().has_headers(false).delimiter(delimiter).from_reader(&bytes[..]);
            let mut record = csv::ByteRecord::new();
            match reader.read_byte_record(&mut record) {
                Ok(true) => { let mut out = String::from("ok"); for f in record.iter() { out.push(' '); out.push_str(&hex(f)); } out }
                Ok(false) => "none".into(),
                Err(_) => "error".into(),
            }
        }
        "form" => {
            let bytes = unhex(words[1]);
            let mut out = String::from("ok");
            for (n, v) in form_urlencoded::parse(&bytes) { out.push_str(&format!(" {} {}", hex(n.as_bytes()), hex(v.as_bytes()))); }
            out
        }
        "percent" => format!("ok {}", hex(percent_encoding::percent_decode(&unhex(words[1])).decode_utf8_lossy().as_bytes())),
        "url" => match url::Url::parse(&text(words[1])) {
            Err(_) => "bad".into(),
            Ok(u) => {
                let mut out = format!("ok {} {} {} {} {} {} {}", hex(u.scheme().as_bytes()), hex(u.username().as_bytes()), hex(u.password().unwrap_or("").as_bytes()),
                    option(u.host_str()), u.port().map_or("-".into(), |p| p.to_string()), hex(u.path().as_bytes()), option(u.fragment()));
                for (n, v) in u.query_pairs() { out.push_str(&format!(" {} {}", hex(n.as_bytes()), hex(v.as_bytes()))); }
                out
            }
        },
        _ => regexes(&words),
    }
}

fn main() {
    let stdin = std::io::stdin();
    let mut out = std::io::BufWriter::new(std::io::stdout());
    for line in stdin.lock().lines() {
        writeln!(out, "{}", answer(&line.unwrap())).unwrap();
        out.flush().unwrap();
    }
}
