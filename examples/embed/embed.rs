//! Judges each image that it is given as `xdpvm verify` does, and runs it once on a packet of 64 bytes.
//!
//! usage: embed_rs IMAGE..

mod xdpvm;

use xdpvm::{End, Error, Head, MapRefusal, MapRow, Session};

/// Prints what the command prints, and returns the bound of an accepted program.
fn judge(image: &[u8]) -> Result<Option<u32>, Error> {
    match xdpvm::verify(image) {
        Ok(bound) => {
            println!("ok bound {bound}");
            Ok(Some(bound))
        }
        Err(Error::Refused(why)) => {
            let (line, rest) = why.split_once('\n').unwrap_or((&why, ""));
            println!("{line}");
            eprint!("{rest}");
            Ok(None)
        }
        Err(error) => Err(error),
    }
}

/// Runs the program, and once more with every access tested, and in a session: they have to agree.
fn run(image: &[u8], bound: u32) -> Result<(), Error> {
    let head = Head {
        time: 1000,
        interface: 2,
        queue: 0,
    };
    let mut packet: [u8; 64] = std::array::from_fn(|i| i as u8);
    let mut tested = packet;
    let ended = xdpvm::run_once(image, &head, &mut packet)?;
    let end = xdpvm::trace_once(image, &head, &mut tested, bound)?;
    assert_eq!((end, tested), (End::Exit(ended), packet));
    let mut again: [u8; 64] = std::array::from_fn(|i| i as u8);
    let ran = Session::open(image)?.run(&head, &mut again)?;
    assert_eq!((ran, again), (ended, packet));
    eprintln!("action {}, {} steps", xdpvm::action(ended.r0), ended.steps);
    Ok(())
}

/// A program that counts packets by interface, whose map the host fills and reads, and a session that changes threads.
fn count() -> Result<(), Error> {
    let image = xdpvm::assemble(COUNTS)?;
    let mut session = Session::open(&image)?;
    assert_eq!(session.update(0, &[2, 0, 0, 0], &[0; 8], 1)?, 0);
    assert_eq!(session.update(0, &[2, 0, 0, 0], &[0; 8], 1)?, -17);
    assert_eq!(session.delete(0, &[3, 0, 0, 0])?, -2);
    let mut session = std::thread::spawn(move || {
        for interface in [1, 2, 2, 3] {
            let head = Head {
                interface,
                ..Head::default()
            };
            let ended = session.run(&head, &mut [0; 60])?;
            assert_eq!(ended.r0, if interface == 2 { 2 } else { 1 });
        }
        Ok::<Session, Error>(session)
    })
    .join()
    .expect("the thread")?;
    let mut key = [0; 4];
    let mut value = [0; 8];
    assert!(session.lookup(0, &[2, 0, 0, 0], &mut value)? && value[0] == 2);
    assert!(!session.lookup(0, &[1, 0, 0, 0], &mut value)?);
    assert!(session.key_at(0, 0, &mut key, &mut value)? && key == [2, 0, 0, 0] && value[0] == 2);
    assert!(!session.key_at(0, 1, &mut key, &mut value)?);
    assert_eq!(
        session.lookup(1, &[2, 0, 0, 0], &mut value),
        Err(Error::Wrong)
    );
    assert_eq!(session.delete(0, &[2, 0, 0, 0])?, 0);
    assert!(!session.lookup(0, &[2, 0, 0, 0], &mut value)?);
    Ok(())
}

/// Counts a packet if the map has its interface.
const COUNTS: &str = "map hash 4 8 8
r2 = *(u32 *)(r1 + 12)
*(u32 *)(r10 - 4) = r2
r1 = map_by_idx(0)
r2 = r10
r2 += -4
call 1
if r0 == 0 goto other
r1 = *(u64 *)(r0 + 0)
r1 += 1
*(u64 *)(r0 + 0) = r1
r0 = 2
exit
other: r0 = 1
exit
";

/// The text that fills the map of the session, what the map holds, and a stream on it.
fn texts() -> Result<(), Error> {
    let image = xdpvm::assemble(COUNTS)?;
    let found = xdpvm::describe(&image)?;
    assert_eq!((found.version, found.slots, found.maps.len()), (1, 15, 1));
    let row = MapRow {
        kind: 1,
        key_size: 4,
        value_size: 8,
        entries: 8,
    };
    assert_eq!(found.maps[0], row);
    assert_eq!(xdpvm::assemble(&xdpvm::disassemble(&image)?)?, image);
    let mut session = Session::open(&image)?;
    let text =
        b"# two interfaces\nmap 0 02000000 0100000000000000\nmap 0 07000000 0000000000000000";
    assert_eq!(session.fill(text)?, None);
    let wrong = MapRefusal {
        line: 2,
        column: 7,
        code: 3,
    };
    assert_eq!(
        session.fill(b"map 0 09000000 0900000000000000\nmap 0 07 00")?,
        Some(wrong)
    );
    let mut frames = b"XPF1".to_vec();
    for interface in [2, 7, 2, 9, 1] {
        frames.extend_from_slice(&[0; 8]);
        frames.extend_from_slice(&[interface, 0, 0, 0, 0, 0, 0, 0, 1, 0, 0, 0, 255]);
    }
    let held = "map 0 02000000 0300000000000000\nmap 0 07000000 0100000000000000\nmap 0 09000000 0a00000000000000\n";
    let ran = session.stream(&frames)?;
    let report = String::from_utf8_lossy(&ran.report).into_owned();
    assert!(report.starts_with("0 PASS 1 12\n") && report.ends_with(&format!("{held}end 5\n")));
    assert_eq!(
        (ran.frames, ran.sent.len(), session.list()?.as_str()),
        (5, 88, held)
    );
    Ok(())
}

fn main() -> Result<(), Box<dyn std::error::Error>> {
    assert_eq!(xdpvm::version(), "0.1.0");
    for path in std::env::args().skip(1) {
        let image = std::fs::read(path)?;
        if let Some(bound) = judge(&image)? {
            run(&image, bound)?;
        }
    }
    let image = xdpvm::assemble("r0 = 2\nexit\n")?;
    let long = xdpvm::run_once(&image, &Head::default(), &mut [0; 9217]);
    assert_eq!(long, Err(Error::Wrong));
    assert_eq!(xdpvm::verify_within(&image, 1), Err(Error::Undecided));
    assert_eq!(xdpvm::verify_within(&image, 2), Ok(2));
    let ran = xdpvm::run_stream(&image, b"XPF1")?;
    assert_eq!(
        (&ran.report[..], &ran.sent[..]),
        (&b"end 0\n"[..], &b"XPF1"[..])
    );
    assert_eq!(
        xdpvm::recheck(&image, b"XPT1"),
        Err(Error::Refused(
            "refused P2\nthe table is shorter than its head, or than its entries\n".into()
        ))
    );
    assert!(matches!(
        Session::open_with_table(&image, b"XPT1"),
        Err(Error::Refused(_))
    ));
    assert_eq!(
        xdpvm::refusal(&xdpvm::assemble("r0 = *(u64 *)(r10 - 8)\nexit\n")?)?,
        Some((7, 0))
    );
    assert_eq!(xdpvm::refusal(b"XBP1")?, Some((202, 0)));
    assert_eq!(xdpvm::refusal(&image)?, None);
    count()?;
    texts()?;
    Ok(())
}
