//! board [DUMP]: what board.c does, in Rust. What each call promises, and what stands where in an answer, is written in
//! include/ruxtajma.h. A Rust slice is what a call asks for: not null, and no `&mut` overlaps another.
use std::io::{Read, Write};

mod ruxtajma {
    /// The number of the refusal; and at 23 the inner one.
    pub type Refusal = (u8, u8);

    #[link(name = "exports", kind = "static")]
    extern "C" {
        fn ruxtajma_read(d: *const u8, length: usize) -> u64;
        fn ruxtajma_list(d: *const u8, length: usize, room: *mut u8, room_length: usize) -> u64;
        fn ruxtajma_entry(t: *const u8, length: usize, place: usize) -> u64;
        fn ruxtajma_io_routes(t: *const u8, length: usize, itype: u8, bus: u8, irq: u8,
                              room: *mut u8, room_length: usize) -> u64;
        fn ruxtajma_address(t: *const u8, length: usize, bus: u8, kind: u8, address: u64) -> u64;
        fn ruxtajma_edit(t: *mut u8, length: usize, place: usize,
                         stated: *const u8, stated_length: usize,
                         wanted: *const u8, wanted_length: usize) -> u64;
    }

    /// The values of an answer, from its third byte on.
    fn values(answer: u64) -> Result<u64, Refusal> {
        match answer as u8 {
            0 => Ok(answer >> 16),
            number => Err((number, (answer >> 8) as u8)),
        }
    }

    /// Where the table stands in the dump; none in a default configuration.
    pub fn read(d: &[u8]) -> Result<Option<std::ops::Range<usize>>, Refusal> {
        let v = values(unsafe { ruxtajma_read(d.as_ptr(), d.len()) })?;
        let (start, length) = ((v >> 16) as u16 as usize, (v >> 32) as usize);
        Ok((v as u8 == 0).then_some(start..start + length))
    }

    pub fn list<'a>(d: &[u8], room: &'a mut [u8]) -> Result<&'a [u8], Refusal> {
        let count = values(unsafe { ruxtajma_list(d.as_ptr(), d.len(), room.as_mut_ptr(), room.len()) })?;
        Ok(&room[..count as usize])
    }

    /// The entry at a place; none where no whole one stands.
    pub fn entry(t: &[u8], place: usize) -> Option<&[u8]> {
        let length = unsafe { ruxtajma_entry(t.as_ptr(), t.len(), place) } >> 16;
        (length > 0).then(|| &t[place..place + length as usize])
    }

    /// The pairs, two bytes each.
    pub fn io_routes<'a>(t: &[u8], itype: u8, bus: u8, irq: u8, room: &'a mut [u8]) -> Result<&'a [u8], Refusal> {
        let (start, length) = (room.as_mut_ptr(), room.len());
        let count = values(unsafe { ruxtajma_io_routes(t.as_ptr(), t.len(), itype, bus, irq, start, length) })?;
        Ok(&room[..2 * count as usize])
    }

    /// 0 for no, 1 for yes, 2 for undeclared; and the links that were climbed.
    pub fn address(t: &[u8], bus: u8, kind: u8, address: u64) -> Result<(u8, u64), Refusal> {
        let v = values(unsafe { ruxtajma_address(t.as_ptr(), t.len(), bus, kind, address) })?;
        Ok((v as u8, v >> 8))
    }

    pub fn edit(t: &mut [u8], place: usize, stated: &[u8], wanted: &[u8]) -> Result<(), Refusal> {
        let (from, to) = ((stated.as_ptr(), stated.len()), (wanted.as_ptr(), wanted.len()));
        values(unsafe { ruxtajma_edit(t.as_mut_ptr(), t.len(), place, from.0, from.1, to.0, to.1) }).map(|_| ())
    }
}

const IO_INTERRUPT: u8 = 3;

fn edit(table: &mut [u8], place: usize, stated: &[u8]) {
    let mut wanted = stated.to_vec();
    wanted[7] = 9;
    match ruxtajma::edit(table, place, stated, &wanted) {
        Ok(()) => println!("entry {place} to input 9: done, byte 7 is {:02X}h", table[7]),
        Err((23, inner)) => println!("entry {place} to input 9: refused 23, inner {inner}"),
        Err((number, _)) => println!("entry {place} to input 9: refused {number}"),
    }
}

/// The first I/O interrupt, and its number among the entries.
fn walk(table: &[u8]) -> Option<(usize, Vec<u8>)> {
    let (mut at, mut number, mut found) = (44, 0, None);
    while let Some(entry) = ruxtajma::entry(table, at) {
        println!("entry at {at}: type {}, {} bytes", entry[0], entry.len());
        if found.is_none() && entry[0] == IO_INTERRUPT {
            found = Some((number, entry.to_vec()));
        }
        (at, number) = (at + entry.len(), number + 1);
    }
    found
}

fn work_on(table: &mut [u8], room: &mut [u8]) -> Result<(), ruxtajma::Refusal> {
    let Some((place, seen)) = walk(table) else { return Ok(()) };
    print!("interrupt type {}, bus {}, IRQ {}:", seen[1], seen[4], seen[5]);
    for pair in ruxtajma::io_routes(table, seen[1], seen[4], seen[5], room)?.chunks(2) {
        print!(" ({},{})", pair[0], pair[1]);
    }
    let (answer, links) = ruxtajma::address(table, seen[4], 0, 0x100)?;
    let word = ["no", "yes", "undeclared"][answer as usize];
    println!("\nI/O address 100h, bus {}: {word}, links {links}", seen[4]);
    edit(table, place, &seen);
    edit(table, place, &seen);
    Ok(())
}

fn work(dump: &mut [u8]) -> Result<(), ruxtajma::Refusal> {
    let mut room = vec![0; 131072];
    std::io::stdout().write_all(ruxtajma::list(dump, &mut room)?).expect("the listing is written");
    match ruxtajma::read(dump)? {
        Some(place) => work_on(&mut dump[place], &mut room),
        None => Ok(()),
    }
}

fn main() -> std::io::Result<()> {
    let mut dump = Vec::new();
    match std::env::args().nth(1) {
        Some(name) => dump = std::fs::read(name)?,
        None => _ = std::io::stdin().read_to_end(&mut dump)?,
    }
    if let Err((number, _)) = work(&mut dump) {
        println!("refused {number}");
    }
    Ok(())
}
