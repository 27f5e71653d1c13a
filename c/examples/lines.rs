//! Prints with the library what `dnscanon` prints: `lines canon`, `same`, `normal`, `keytags`, `zone APEX` and `hash NAME SALT N`. Messages come
//! as lines of hexadecimal digits on standard input. Names on the command line have no escapes.

mod nelgvasti;

use nelgvasti::Error;
use std::io::Read;
use std::process::ExitCode;

fn octets_of(text: &str) -> Vec<u8> {
    (0..text.len() / 2).map(|i| u8::from_str_radix(&text[2 * i..2 * i + 2], 16).unwrap_or(0)).collect()
}

fn name_of(text: &str) -> Vec<u8> {
    let mut name = Vec::new();
    for label in text.split('.').filter(|label| !label.is_empty()) {
        name.push(label.len() as u8);
        name.extend(label.as_bytes());
    }
    name.push(0);
    name
}

fn line(octets: &[u8]) -> String {
    octets.iter().map(|octet| format!("{octet:02x}")).chain(["\n".into()]).collect()
}

/// Base32hex (RFC 4648 section 7).
fn text_of(hash: &[u8; 20]) -> String {
    let digit = |i: usize| {
        let bit = 5 * i;
        let pair = u16::from(hash[bit / 8]) << 8 | u16::from(*hash.get(bit / 8 + 1).unwrap_or(&0));
        char::from(b"0123456789abcdefghijklmnopqrstuv"[usize::from(pair >> (11 - bit % 8) & 31)])
    };
    (0..32).map(digit).chain(['\n']).collect()
}

fn tags(message: &[u8]) -> Result<String, Error> {
    let records = nelgvasti::canonical(message)?;
    let keys = records.iter().map(|octets| &octets[nelgvasti::owner_end(octets)..]).filter(|rest| rest[..2] == [0, 48]);
    Ok(keys.map(|rest| nelgvasti::key_tag(&rest[10..]).map_or("-\n".into(), |tag| format!("{tag}\n"))).collect())
}

fn printed(words: &[&str]) -> Result<String, Error> {
    if let ["hash", name, salt, iterations] = words {
        let salt = if *salt == "-" { "" } else { salt };
        return Ok(text_of(&nelgvasti::nsec3_hash(&name_of(name), &octets_of(salt), iterations.parse().map_err(|_| Error::Usage)?)?));
    }
    let mut text = String::new();
    std::io::stdin().read_to_string(&mut text).map_err(|_| Error::Usage)?;
    let messages: Vec<Vec<u8>> = text.lines().map(octets_of).collect();
    let message = messages.first().map_or(&[][..], Vec::as_slice);
    match words {
        ["canon"] => Ok(nelgvasti::canonical(message)?.iter().map(|octets| line(octets)).collect()),
        ["same"] => nelgvasti::same(message, messages.get(1).map_or(&[], Vec::as_slice)).map(|same| if same { "same\n" } else { "different\n" }.into()),
        ["normal"] => Ok(line(&nelgvasti::normal(message)?)),
        ["keytags"] => tags(message),
        ["zone", apex] => {
            let found = nelgvasti::zone_digest(&messages, &name_of(apex))?;
            Ok(format!("records {} octets {}\ndigest {}", found.records, found.octets, line(&found.digest)))
        }
        _ => Err(Error::Usage),
    }
}

fn main() -> ExitCode {
    let words: Vec<String> = std::env::args().skip(1).collect();
    let words: Vec<&str> = words.iter().map(String::as_str).collect();
    match printed(&words) {
        Ok(text) => {
            print!("{text}");
            ExitCode::SUCCESS
        }
        Err(error) => {
            match error {
                Error::Short { message } => eprintln!("short {message}"),
                Error::Item { message, section, index } => eprintln!("item {message} {section} {index}"),
                _ => {}
            }
            ExitCode::from(error.code())
        }
    }
}
