//! Plays a script of `sfu replay` over libsfu, and prints what it sends and what is announced.
//!
//!     replay SETTINGS < SCRIPT
//!
//! Each event is done with all that follows from it, so each `hear`, `tick` and `select` of the script has a `settle` after it. Of
//! `show P` the requests are printed, as `set P SSRC WORD..`; then what is live, as `live SSRC WORD..`; then the certificate, whose places
//! count these: `kept PLACE PACKETS BITS SECONDS`, hexadecimal but for the place and the seconds, and `implied PLACE A B P Q R`.
use sfu::{Conference, Request};
use std::error::Error;
use std::io::{self, BufRead};
use std::{env, fs};

fn bytes_of(hex: &str) -> Result<Vec<u8>, Box<dyn Error>> {
    if hex.len() % 2 != 0 {
        return Err("half a byte".into());
    }
    (0..hex.len()).step_by(2).map(|k| Ok(u8::from_str_radix(hex.get(k..k + 2).ok_or("no hex")?, 16)?)).collect()
}

fn word(request: &Request) -> u32 {
    request.exponent << 26 | request.mantissa << 9 | request.overhead
}

fn play(conference: &mut Conference, line: &str) -> Result<(), Box<dyn Error>> {
    match line.split(' ').collect::<Vec<_>>()[..] {
        ["hear", moment, endpoint, hex] => conference.hear(moment.parse()?, endpoint.parse()?, &bytes_of(hex)?)?,
        ["tick", moment] => conference.tick(moment.parse()?)?,
        ["select", moment, leg, on] => conference.select(moment.parse()?, leg.parse()?, on == "on")?,
        ["settle"] => conference.settle()?,
        ["show", endpoint] => {
            let set = conference.announced(endpoint.parse()?)?;
            let told: String = set.iter().map(|r| format!(" {:08x} {:08x}", r.ssrc, word(r))).collect();
            println!("set {endpoint}{told}");
            let shown = conference.certified(endpoint.parse()?)?;
            let live: String = shown.live.iter().map(|r| format!(" {:08x} {:08x}", r.ssrc, word(r))).collect();
            println!("live{live}");
            for k in &shown.kept {
                println!("kept {} {:032x} {:032x} {}", k.place, k.packets(), k.bits(), k.seconds);
            }
            for i in &shown.implied {
                println!("implied {} {} {} {} {} {}", i.place, i.a, i.b, i.p, i.q, i.r);
            }
        }
        _ => return Err(format!("no line of a script: {line}").into()),
    }
    let mut room = vec![0; 65536];
    while let Some(next) = conference.next_out(&mut room)? {
        let hex: String = next.bytes.iter().map(|byte| format!("{byte:02x}")).collect();
        println!("send {} {hex}", next.endpoint);
    }
    Ok(())
}

fn main() -> Result<(), Box<dyn Error>> {
    let settings = env::args().nth(1).ok_or("wants SETTINGS")?;
    let mut conference = Conference::open(&fs::read(settings)?)?;
    for line in io::stdin().lock().lines() {
        let line = line?;
        if !line.is_empty() && !line.starts_with('#') {
            play(&mut conference, &line)?;
        }
    }
    Ok(())
}
