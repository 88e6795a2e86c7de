//! Prints the verdict on every frame, then every step of the translation.

use model::{Verdict, judge, translate};
use std::io::{self, BufWriter, Write};

fn print_frames(out: &mut impl Write) -> io::Result<()> {
    for number in 0..=0x7FF {
        write!(out, "{number:03X} ")?;
        match judge(number) {
            Verdict::Sound(byte) => writeln!(out, "sound {byte:02X}")?,
            Verdict::WrongParity => writeln!(out, "parity")?,
            Verdict::Broken => writeln!(out, "broken")?,
            Verdict::Noise => writeln!(out, "noise")?,
        }
    }
    Ok(())
}

fn print_translation(out: &mut impl Write, flag: bool) -> io::Result<()> {
    for byte in 0..=0xFF {
        write!(out, "{byte:02X} {} ", u8::from(flag))?;
        let (code, flag_after) = translate(byte, flag);
        match code {
            Some(code) => write!(out, "{code:02X}")?,
            None => write!(out, "--")?,
        }
        writeln!(out, " {}", u8::from(flag_after))?;
    }
    Ok(())
}

fn main() -> io::Result<()> {
    let mut out = BufWriter::new(io::stdout().lock());
    print_frames(&mut out)?;
    print_translation(&mut out, false)?;
    print_translation(&mut out, true)?;
    out.flush()
}
