//! A small profile there and back, and what is refused.

use rohcfn::{Bits, Error, Session};

const PLAIN: &str =
    "plain\n{\n  UNCOMPRESSED { a [4]; b [12]; }\n  COMPRESSED {\n    d =:= '10' [2];\n    a =:= irregular(4) [4];\n    b =:= irregular(12) [12];\n  }\n}\n";

fn open() -> Session {
    Session::open("plain", PLAIN.as_bytes(), &[], 2).unwrap()
}

// By hand: '10', then 0101, then 1010 1011 1100, is 1001 0110 1010 1111 00.
#[test]
fn there_and_back() {
    let (mut session, header) = (open(), Bits::of(&[0x5a, 0xbc], 16));
    let packet = session.pack(0, &header, &[]).unwrap();
    assert_eq!(packet, Bits::of(&[0x96, 0xaf, 0x00], 18));
    let item = session.unpack(1, &packet).unwrap();
    assert_eq!((item.header, item.asked, item.taken), (header, vec![], 18));
    assert_eq!(session.most().unwrap(), (16, 18));
    assert_eq!(session.contexts(0).unwrap(), 1);
    session.robust(0, 2).unwrap();
    session.reset(0).unwrap();
}

#[test]
fn from_thread_to_thread() {
    let (mut session, header) = (open(), Bits::of(&[0x5a, 0xbc], 16));
    let (packet, mut session) = std::thread::spawn(move || (session.pack(0, &header, &[]).unwrap(), session))
        .join()
        .unwrap();
    assert_eq!(packet, Bits::of(&[0x96, 0xaf, 0x00], 18));
    assert_eq!(session.unpack(0, &packet).unwrap().taken, 18);
}

#[test]
fn refusals() {
    let mut session = open();
    assert_eq!(session.pack(0, &Bits::of(&[0x5a], 8), &[]), Err(Error::NoFormat("F3 NoFormat".into())));
    assert_eq!(session.pack(0, &Bits::of(&[0x5a, 0xbc], 16), &[1]), Err(Error::Asked("F2 Asked".into())));
    assert_eq!(session.pack(0, &Bits::of(&[0x5a, 0xbd], 15), &[]), Err(Error::BadBits));
    assert_eq!(
        session.pack(0, &Bits::of(&[0; 513], 4104), &[]),
        Err(Error::HeaderLength("F1 HeaderLength".into()))
    );
    assert_eq!(session.unpack(0, &Bits::of(&[0x80], 8)), Err(Error::Truncated("U1 Truncated".into())));
    assert!(matches!(session.unpack(0, &Bits::of(&[0x40, 0, 0], 24)), Err(Error::RefusedPacket(_))));
    assert_eq!(session.reset(2), Err(Error::NoSuch));
    assert!(matches!(Session::open("plain", b"plain {", &[], 1), Err(Error::Refused(_))));
    assert!(matches!(Session::open("plain", PLAIN.as_bytes(), &[], 0), Err(Error::NoSuch)));
    assert!(matches!(Session::open("plain", PLAIN.as_bytes(), &[], 65), Err(Error::NoSuch)));
}
