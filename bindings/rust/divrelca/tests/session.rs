//! A client against a server in memory.

use divrelca::{
    keys, message_name, version, wire, AsEither, Ask, Client, ClientSettings, End, Error, Event, Login, Material, Role, Server,
    ServerSettings, Shown, User,
};

const HOST_SEED: [u8; 32] = [7; 32];
const USER_SEED: [u8; 32] = [8; 32];

// Pairs that come once each.
struct Pairs(u8);

impl Pairs {
    fn next(&mut self) -> Material {
        self.0 += 1;
        Material { cookie: [self.0; 16], secret: [self.0; 32] }
    }
}

// What a side was told, without what it was lent.
#[derive(Default)]
struct Heard {
    kinds: Vec<String>,
    data: Vec<u8>,
    extended: usize,
    opened: Option<u32>,
}

struct Pair {
    client: Client,
    server: Server,
    pairs: Pairs,
    at_client: Heard,
    at_server: Heard,
}

fn pair() -> Pair {
    let user_key = keys::public_key(&USER_SEED);
    pair_of(&[User { name: b"me", login: Login::Key(&user_key) }, User { name: b"me", login: Login::Password(b"word") }])
}

fn pair_of(users: &[User<'_>]) -> Pair {
    // the server has the second of the host's two keys
    pair_with(users, &[keys::public_key(&USER_SEED), keys::public_key(&HOST_SEED)])
}

fn pair_with(users: &[User<'_>], host_keys: &[[u8; 32]]) -> Pair {
    let mut pairs = Pairs(0);
    let server = Server::new(&ServerSettings::new(&HOST_SEED, users), &pairs.next(), &[3; 32]).expect("a server");
    let client = Client::new(&ClientSettings::new(host_keys, Some(&USER_SEED)), &pairs.next(), &[3; 32]).expect("a client");
    Pair { client, server, pairs, at_client: Heard::default(), at_server: Heard::default() }
}

// Gives bytes to an end, which consumes data and declines what nobody knows.
fn give<R: Role>(end: &mut End<R>, bytes: &[u8], heard: &mut Heard, pairs: &mut Pairs) {
    let mut at = 0;
    while at < bytes.len() && !end.is_over() {
        at += end.take(&bytes[at..]).expect("taken");
        let (mut consumed, mut known) = (None, false);
        let event = end.event();
        heard.kinds.push(format!("{event:?}").split([' ', '(']).next().unwrap_or("").to_string());
        match event {
            Event::Data { channel, kind, body } => {
                heard.extended += if kind.is_some() { body.len() } else { 0 };
                heard.data.extend_from_slice(body);
                consumed = Some((channel, body.len()));
            }
            Event::Opened { channel, kind: b"session", .. } => {
                heard.opened = Some(channel);
                known = true;
            }
            _ => {}
        }
        if let Some((channel, count)) = consumed {
            end.consume(channel, count).expect("consumed");
        } else if !known {
            end.decline().expect("declined");
        }
        end.feed(&pairs.next());
        while end.queued() > 0 && !matches!(end.work(), Err(error) if error.is_later()) {}
    }
}

impl Pair {
    fn carry(&mut self) {
        loop {
            let (up, down) = (self.client.output().to_vec(), self.server.output().to_vec());
            if up.is_empty() && down.is_empty() {
                return;
            }
            self.client.written(up.len());
            self.server.written(down.len());
            give(&mut self.server, &up, &mut self.at_server, &mut self.pairs);
            give(&mut self.client, &down, &mut self.at_client, &mut self.pairs);
        }
    }

    fn ask_client(&mut self, ask: Ask<'_>) -> Option<u32> {
        let number = self.client.ask(&ask).expect("an ask of the client");
        self.carry();
        number
    }

    fn ask_server(&mut self, ask: Ask<'_>) {
        self.server.ask(&ask).expect("an ask of the server");
        self.carry();
    }
}

#[test]
fn session() {
    let mut pair = pair();
    assert!(pair.client.peer_version().is_none() && pair.client.session_id().is_none());
    pair.carry();
    assert!(pair.client.peer_version().expect("a line").starts_with(b"SSH-2.0-"));
    assert_eq!(pair.client.session_id().map(<[u8]>::len), Some(32));
    assert_eq!(pair.client.session_id(), pair.server.session_id());
    pair.ask_client(Ask::Service);
    pair.ask_client(Ask::LoginPassword { user: b"me", password: b"not it" });
    pair.ask_client(Ask::LoginKey { user: b"me" });
    let here = pair.ask_client(Ask::Open { kind: b"session", window: 40000, max_packet: 32768, rest: b"" }).expect("its number");
    let there = pair.at_server.opened.expect("an opened channel");
    pair.ask_server(Ask::Confirm { channel: there, window: 40000, max_packet: 32768, rest: b"" });
    pair.ask_client(Ask::Request { channel: here, name: b"exec", want: true, rest: b"\0\0\0\x01x" });
    let body: Vec<u8> = (0..100_000_u32).map(|it| it as u8).collect();
    let mut at = 0;
    while at < body.len() {
        at += pair.client.send(here, None, &body[at..]).expect("sent");
        pair.carry();
    }
    assert_eq!(pair.at_server.data, body);
    pair.server.send(there, std::num::NonZeroU32::new(1), b"err").expect("sent");
    pair.carry();
    assert_eq!(pair.at_client.extended, 3);
    pair.client.ask(&Ask::Rekey).expect("an exchange of keys");
    assert_eq!(pair.client.sent(0).map(|it| it[0]), Some(20));
    assert!(pair.client.sent(1).is_none());
    pair.client.queue(&Ask::Eof { channel: here }).expect("queued");
    assert!(matches!(pair.client.work(), Err(error) if error.is_later()));
    pair.carry();
    assert_eq!(pair.client.queued(), 0);
    pair.ask_client(Ask::Global { name: b"keepalive@openssh.com", want: true, rest: b"" });
    pair.ask_client(Ask::Close { channel: here });
    pair.ask_client(Ask::Disconnect { description: b"done" });
    assert!(pair.client.is_over() && pair.server.is_over());
    for kind in ["Completed", "Tried", "Accepted", "Opened", "Requested", "Data", "Global", "Ended", "Closed", "Disconnected"] {
        assert!(pair.at_server.kinds.iter().any(|it| it == kind), "{kind}");
    }
    for kind in ["Completed", "Service", "Failed", "Authenticated", "Confirmed", "RequestDone", "Adjusted", "GlobalDone", "Closed"] {
        assert!(pair.at_client.kinds.iter().any(|it| it == kind), "{kind}");
    }
}

#[test]
fn a_user_is_looked_up() {
    let user_key = keys::public_key(&USER_SEED);
    let logins = [Login::Password(b"word"), Login::Key(&user_key)];
    let mut pair = pair_of(&[]);
    pair.carry();
    pair.ask_client(Ask::Service);
    pair.client.ask(&Ask::LoginNone { user: b"me" }).expect("an ask of the client");
    let request = pair.client.output().to_vec();
    pair.client.written(request.len());
    assert_eq!(pair.server.take(&request).expect("taken"), request.len());
    let name = match pair.server.event() {
        Event::Tried { user, shown: Shown::Nothing } => user.to_vec(),
        other => panic!("{other:?}"),
    };
    assert_eq!(pair.server.set_user(&name, &[Login::Key(&[0; 32])]).err(), Some(Error::BadKey));
    assert_eq!(pair.server.set_user(&name, &[Login::Password(b"")]).err(), Some(Error::BadLogin));
    assert_eq!(pair.server.set_user(b"", &[]).err(), Some(Error::BadLogin));
    pair.server.set_user(&name, &logins).expect("set");
    assert_eq!(pair.server.set_user(&name, &logins).err(), Some(Error::UserKnown));
    pair.carry();
    pair.ask_client(Ask::LoginPassword { user: b"you", password: b"word" });
    assert_eq!(pair.server.set_user(b"you", &logins).err(), Some(Error::UserKnown));
    pair.ask_client(Ask::LoginPassword { user: b"you", password: b"word" });
    assert!(!pair.at_server.kinds.iter().any(|it| it == "Accepted"));
    pair.ask_client(Ask::LoginKey { user: b"me" });
    assert!(pair.at_server.kinds.iter().any(|it| it == "Accepted"));
    pair.ask_client(Ask::Disconnect { description: b"done" });
    assert_eq!(pair.server.set_user(b"he", &[]).err(), Some(Error::Over));
}

#[test]
fn errors() {
    let mut pair = pair();
    let early = pair.client.ask(&Ask::Service).expect_err("too early");
    assert_eq!((early.code(), early.name(), early.is_later()), (1, "NotYet", true));
    let none = pair.client.send(3, None, b"x").expect_err("no channel");
    assert_eq!((none.name(), none.is_gone()), ("NoChannel", true));
    let mut at = 0;
    while at < 11 {
        at += pair.client.take(&b"SSH-1.0-x\r\n"[at..]).expect("taken");
    }
    assert!(matches!(pair.client.event(), Event::Refused { name: b"BadVersion", .. }));
    assert_eq!(pair.client.take(b"x").expect_err("over"), Error::Over);
    let key = [0; 32];
    let zeros = [User { name: b"me", login: Login::Key(&key) }];
    let refused = Server::new(&ServerSettings::new(&HOST_SEED, &zeros), &Pairs(0).next(), &[3; 32]);
    assert_eq!(refused.err(), Some(Error::BadKey));
    for keys in [&[key][..], &[keys::public_key(&HOST_SEED); 17]] {
        let refused = Client::new(&ClientSettings::new(keys, None), &Pairs(0).next(), &[3; 32]);
        assert_eq!(refused.err(), Some(Error::BadKey));
    }
    assert!(Client::new(&ClientSettings::new(&[], None), &Pairs(0).next(), &[3; 32]).is_ok());
    assert_eq!(keys::authorized_keys(b"x\n").expect_err("no key").line, 0);
    let skipped: Vec<_> = keys::skipped_users(b"#\nx\n").map(|it| (it.line, it.error)).collect();
    assert_eq!(skipped, [(2, Error::FileAuthorizedKey)]);
    assert_eq!(keys::skipped_hosts(b"x\n", "a.org").count(), 1);
}

#[test]
fn a_host_of_other_keys_is_refused() {
    let mut pair = pair_with(&[], &[keys::public_key(&USER_SEED), keys::public_key(&[9; 32])]);
    pair.carry();
    assert!(pair.client.is_over() && matches!(pair.client.event(), Event::Refused { .. }));
}

#[test]
fn an_end_goes_to_another_thread() {
    let mut client = pair().client;
    let line = std::thread::spawn(move || client.output()[..8].to_vec()).join().expect("joined");
    assert_eq!(line, b"SSH-2.0-");
}

#[test]
fn names_of_errors_are_those_of_the_library() {
    for error in Error::ALL {
        assert_eq!(error.name(), format!("{error:?}"), "{}", error.code());
    }
}

#[test]
fn secrets_are_not_shown() {
    let shown = format!("{:?} {:?}", Ask::LoginPassword { user: b"me", password: b"geheim" }, Login::Password(b"geheim"));
    assert!(shown.contains("me") && !shown.contains("geheim"));
    let users = [User { name: b"me", login: Login::Password(b"geheim") }];
    let server = format!("{:?}", ServerSettings::new(&[219; 32], &users));
    let client = format!("{:?} {:?}", ClientSettings::new(&[[7; 32]], Some(&[219; 32])), Pairs(218).next());
    assert!(!server.contains("219") && !server.contains("geheim") && !client.contains("219"), "{server} {client}");
}

#[test]
fn an_ask_that_waits_tells_its_channel() {
    let mut pair = pair();
    pair.carry();
    pair.ask_client(Ask::Service);
    pair.ask_client(Ask::LoginPassword { user: b"me", password: b"word" });
    pair.client.queue(&Ask::Open { kind: b"session", window: 40000, max_packet: 32768, rest: b"" }).expect("queued");
    assert_eq!(pair.client.work(), Ok(Some(0)));
    pair.client.queue(&Ask::Global { name: b"x", want: false, rest: b"" }).expect("queued");
    assert_eq!(pair.client.work(), Ok(None));
    let either = End::<AsEither>::from(pair.client);
    assert!(!either.is_over() && either.queued() == 0 && either.room(0) == 0);
}

#[test]
fn requests_are_read_and_written() {
    let put = wire::Put::new().string("a").number(7).flag(true).done();
    let mut take = wire::Take(&put);
    assert_eq!((take.text(), take.number(), take.flag(), take.flag()), (Some("a"), Some(7), Some(true), None));
    let key = keys::public_key(&HOST_SEED);
    assert_eq!(keys::of_blob(&keys::to_blob(&key)), Some(key));
    assert_eq!(keys::of_blob(b"x"), None);
}

#[test]
fn names() {
    assert_eq!((message_name(20), message_name(200), version() >> 16), ("KEXINIT", "UNKNOWN", 3));
}
