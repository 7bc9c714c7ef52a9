//! Calls every function of the library, on input that it takes and on input that it refuses, and writes what comes of it. calls.c
//! writes the same.

use moldthatch::*;

const TEXT: &[u8] = b"10 PRINT\"HI\"\n\n20 sY64738\n";
const ZERO: &[u8] = b"10 PRINT\"{0}A\":REM hi\n20 GOTO 30\n";
const BY_LINKS: ListOptions = ListOptions {
    dialect: Dialect::Auto,
    remarks: true,
    links: true,
};

fn number(name: &str, answer: Result<usize, Refusal>) {
    match answer {
        Ok(number) => println!("{name}: {number}"),
        Err(refusal) => println!("{name}: {refusal}"),
    }
}

fn pair(name: &str, answer: Result<Option<(usize, usize)>, Refusal>) {
    match answer {
        Ok(Some((first, second))) => println!("{name}: {first} {second}"),
        Ok(None) => println!("{name}: none"),
        Err(refusal) => println!("{name}: {refusal}"),
    }
}

fn line(name: &str, answer: Result<(Option<Line>, usize), Refusal>) {
    match answer {
        Ok((Some(l), beside)) => println!(
            "{name}: {} {} {} {} {} {}, {beside}",
            l.number, l.link, l.address, l.from, l.to, l.next
        ),
        Ok((None, beside)) => println!("{name}: none, {beside}"),
        Err(refusal) => println!("{name}: {refusal}"),
    }
}

fn bytes(name: &str, answer: Result<Vec<u8>, Refusal>) {
    match answer {
        Ok(bytes) => println!("{name}: {}", String::from_utf8_lossy(&bytes)),
        Err(refusal) => println!("{name}: {refusal}"),
    }
}

fn texts() {
    let plain = Options::default();
    let strict = Options {
        dialect: Dialect::BasicV2,
        profile: true,
        short_forms: true,
        ..plain
    };
    let mut out = [0; 256];
    number("crunch", crunch(TEXT, 0x0801, Dialect::Auto, &mut out));
    number("crunch_room", crunch_room(b"X", 0x0801, Dialect::Auto));
    number("crunch_with", crunch_with(TEXT, strict, &mut out));
    number("crunch_with", crunch_with(ZERO, strict, &mut out));
    number("crunch_with", crunch_with(TEXT, plain, &mut out[..5]));
    number("crunch_with_room", crunch_with_room(TEXT, plain));
    number("crunch_with_room", crunch_with_room(ZERO, strict));
    let measured = |text, place| {
        measured_line(text, plain, place).map(|m| (m.map(|m| m.line), m.map_or(0, |m| m.origin)))
    };
    line("measured_line", measured(TEXT, 2));
    line("measured_line", measured(TEXT, 3));
    line("measured_line", measured(b"X", 1));
    let mut places = [0; 4];
    let count = origins(TEXT, &mut places);
    println!("origins: {count} {} {}", places[0], places[1]);
    let of = |dialect: Result<Dialect, Refusal>| dialect.map(|d| d as usize);
    number("dialect_by_name", of(Dialect::by_name(b" Tsb ")));
    number("dialect_by_name", of(Dialect::by_name(b"X")));
    println!("default_load: {}", Dialect::Basic35.default_load());
    number(
        "resolved_dialect",
        of(resolved_dialect(TEXT, Dialect::Auto)),
    );
    number(
        "resolved_dialect",
        of(resolved_dialect(b"10 \x80", Dialect::Auto)),
    );
    println!(
        "is_tsb_word: {} {}",
        is_tsb_word(b"COLOUR") as u8,
        is_tsb_word(b"PRINT") as u8
    );
    pair(
        "escape",
        Ok(escape(b"clr*3").map(|(byte, count)| (byte.into(), count))),
    );
    pair(
        "escape",
        Ok(escape(b"heart").map(|(byte, count)| (byte.into(), count))),
    );
}

fn images() -> Result<(), Refusal> {
    let image = crunched_with(ZERO, Options::default())?;
    bytes("list", listed(&image));
    number("list_room", list_room(&image[..1]));
    bytes("list_under", listed_under(&image, Dialect::Basic35));
    number("list_under_room", list_under_room(&image, Dialect::Basic35));
    bytes("list_with", listed_with(&image, BY_LINKS));
    bytes("list_with", listed_with(&image[..1], BY_LINKS));
    number("list_with_room", list_with_room(&image, BY_LINKS));
    number("list_with_room", list_with_room(&image[..1], BY_LINKS));
    let first = step(&image, 2)?.expect("a line");
    let mut left = Place::whole(first.number);
    let mut out = [0; 9];
    while !left.is_over() {
        let body = first.body(&image).expect("its body");
        let (length, behind) = list_stretch(body, BY_LINKS, left, &mut out);
        bytes("list_stretch", Ok(out[..length].to_vec()));
        left = behind;
    }
    let seen = |image: Result<Image, Refusal>| image.map(|i| Some((i.load.into(), i.lines)));
    pair("check", seen(check(&image)));
    pair("check", seen(check(&image[..image.len() - 1])));
    pair("check_terminators", seen(check_terminators(&image)));
    pair("check_terminators", seen(check_terminators(&image[..4])));
    line("step", Ok((Some(first), 0)));
    line("step", step(&image, image.len() - 2).map(|l| (l, 0)));
    line("step", step(&image, 1000).map(|l| (l, 0)));
    line(
        "step_terminators",
        step_terminators(&image, 2).map(|l| (l, 0)),
    );
    line(
        "step_terminators",
        step_terminators(&image[..1], 2).map(|l| (l, 0)),
    );
    let found = |number, limit| find_line(&image, number, limit).map(|s| (s.line, s.visited));
    line("find_line", found(20, 2));
    line("find_line", found(30, 2));
    line("find_line", found(20, 1));
    pair(
        "relink",
        relink(&image).map(|made| match made {
            Relinked::Changed { offset, link } => Some((offset, link.into())),
            _ => None,
        }),
    );
    for fault in faults(&image) {
        let (kind, first, second) = match fault {
            Fault::OutsideMemory { load, length } => (1, load, length),
            Fault::NumberTooHigh { number } => (2, number, 0),
            Fault::NotAscending { number } => (3, number, 0),
            Fault::ZeroInBody { number, address } => (4, number, address),
            Fault::BodyLength { number, length } => (5, number, length),
            Fault::NoTarget { number, target } => (6, number, target),
            Fault::LinkChanges { number, link } => (7, number, link.into()),
            Fault::LinksLeave => (8, 0, 0),
            Fault::LinksEndless => (9, 0, 0),
        };
        println!("fault: {kind} {first} {second}");
    }
    println!("fault: 0 0 0");
    let mut out = [0; 256];
    let length = index(&image, &mut out)?;
    let lines = &out[..length];
    pair(
        "index_line",
        Ok(index_line(2, lines).map(|l| (l.number, l.offset))),
    );
    pair(
        "index_jump",
        Ok(index_jump(1, lines).map(|j| (j.place, j.target))),
    );
    pair("index_look_up", Ok(index_look_up(30, lines)));
    number("index_report", index_report(&image, &mut out));
    let mut totals = Totals::default();
    totals.add(&image)?;
    totals.join(&Totals::default())?;
    println!("count: {} of {}", totals.share(0x8F), totals.tokens());
    let mut others = [0; 206];
    others[205] = 1;
    let are = |numbers| Totals::of(numbers).is_some() as u8;
    println!(
        "count_are_totals: {} {}",
        are(*totals.counts()),
        are(others)
    );
    let token = |place| Totals::token_at(place).unwrap_or(0);
    println!("count_token_at: {} {}", token(0), token(197));
    Ok(())
}

fn disks() -> Result<(), Refusal> {
    let mut name = [0; 16];
    let length = disk_name(b"hi{a1}", &mut name);
    println!("disk_name: {length} {}", name[2]);
    let name = &name[..length];
    let mut out = [0; 256];
    let mut shown = |disk: &Disk<Vec<u8>>| {
        disk.directory(&mut out)
            .map(|length| out[..length].to_vec())
    };
    bytes("disk_directory", shown(&Disk::of(vec![0; DISK_LENGTH])));
    let mut disk = Disk::fresh();
    disk.save(name, TEXT)?;
    bytes("disk_directory", shown(&disk));
    bytes("disk_read", disk.read(name));
    disk.scratch(name)?;
    bytes("disk_read", disk.read(name));
    pair(
        "disk_check",
        disk.check().map(|h| Some((h.files, h.free_sectors))),
    );
    Ok(())
}

fn digests() {
    let digits: Vec<String> = sha256(b"abc").iter().map(|b| format!("{b:02x}")).collect();
    println!("sha256: {}", digits.concat());
}

fn main() -> Result<(), Refusal> {
    texts();
    images()?;
    disks()?;
    digests();
    Ok(())
}
