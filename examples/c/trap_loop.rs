//! The emulator's loop of trap_loop.c from Rust: the traps of a program go to the library, and a display draws into a block of it.
use macheap::{OsErr, Result, Zone, sys::MH_PARAM_ERR};

struct Machine {
    zone: Zone<'static>,
    a0: u32,
    d0: u32,
}

impl Machine {
    /// Makes the call of a trap, and returns a line on it. D0 has the result then, or else the code.
    fn trap(&mut self, word: u16) -> String {
        let Machine { zone, a0, d0 } = self;
        let number = match word {
            0xA11E => zone.new_ptr(*d0).map(|pointer| *a0 = pointer).and(Ok(0)),
            0xA122 => zone.new_handle(*d0).map(|handle| *a0 = handle).and(Ok(0)),
            0xA023 => zone.dispose_handle(*a0).and(Ok(0)),
            0xA024 => zone.set_handle_size(*a0, *d0).and(Ok(0)),
            0xA025 => zone.get_handle_size(*a0),
            0xA029 => zone.hlock(*a0).and(Ok(0)),
            0xA02A => zone.hunlock(*a0).and(Ok(0)),
            0xA01C => zone.free_mem(),
            _ => Err(OsErr(MH_PARAM_ERR)),
        };
        *d0 = number.unwrap_or_else(|OsErr(code)| i32::from(code) as u32);
        format!("${word:04X}: A0 ${a0:08X}, D0 {}\n", *d0 as i32)
    }

    /// The block that A0 names is the display's while it draws, and the program's again after it.
    fn show(&mut self) -> Result<()> {
        let Machine { zone, a0, .. } = self;
        zone.lend(*a0)?;
        let drawn = zone.window(*a0).map(draw);
        zone.give_back(*a0).and(drawn)
    }
}

/// Draws into a row of pixels; it knows nothing of a zone.
fn draw(pixels: &mut [u8]) {
    for (at, pixel) in pixels.iter_mut().enumerate() {
        *pixel = if at % 8 == 0 { b'#' } else { b'.' };
    }
}

fn run() -> Result<String> {
    // a trap, and what the program put into D0 before it
    let program = [
        (0xA122, 100), (0xA029, 0), (0xA025, 0), (0xA024, 8388609), (0xA02A, 0),
        (0xA024, 300), (0xA01C, 0), (0xA023, 0), (0xA023, 0), (0xA11E, 16),
    ];
    let mut machine = Machine { zone: Zone::new(0x100000, 65536, 65536, 24)?, a0: 0, d0: 0 };
    let mut lines = String::new();
    for (word, d0) in program {
        machine.d0 = d0;
        lines += &machine.trap(word);
    }
    let mut row = [0; 16];
    machine.show()?;
    machine.zone.peek(machine.a0, 0, &mut row)?;
    Ok(lines + &format!("screen: {}\n", String::from_utf8_lossy(&row)))
}

fn main() -> Result<()> {
    print!("{}", run()?);
    Ok(())
}

#[test]
fn prints_what_the_program_in_c_prints() {
    assert_eq!(run().as_deref(), Ok(include_str!("trap_loop.output")));
}
