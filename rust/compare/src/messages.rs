//! Messages of the UCP line to read and to write: a row for each kind.

mod control;
mod geometric_altitude;
mod heartbeat;
mod initialization;
mod report;
mod request;
mod uplink;

pub use uplink::UPLINK;

use ostrogosz::messages as ours;
use second::messages::Message;

use crate::edges::{named, put_one_wild, put_within, Edges, Field};
use crate::generator::Generator;
use crate::texts::TextField;

/// A kind of message.
pub struct Kind {
    /// What the counts call it.
    pub name: &'static str,
    /// Octets of its body.
    pub octets: usize,
    /// What each of its bodies begins with: ID, then version or signature and
    /// subtype.
    pub head: &'static [u8],
    /// Whether a reader tests a field's range.
    pub ranged: bool,
    /// The text of the kind, if it has one.
    pub text: Option<&'static TextField<Message>>,
    /// Every field of the kind that is a number.
    pub fields: &'static [Field<Message>],
    /// A message of zeros.
    blank: fn() -> Message,
    /// A message of the kind in our types; flags are 0 or 1.
    ours: for<'a> fn(&'a Message) -> Option<ours::Message<'a>>,
    /// A message of the kind in the second program's types.
    theirs: fn(&ours::Message<'_>) -> Option<Message>,
    /// A message of the kind as the explainer shows it.
    shown: fn(&Message) -> Option<String>,
}

/// Every kind.
pub static KINDS: [&Kind; 8] = [
    &heartbeat::HEARTBEAT,
    &UPLINK,
    &report::OWNSHIP,
    &geometric_altitude::GEOMETRIC_ALTITUDE,
    &report::TRAFFIC,
    &request::REQUEST,
    &control::CONTROL,
    &initialization::INITIALIZATION,
];

/// The kind with this ID.
pub fn kind(id: u8) -> &'static Kind {
    let found = KINDS.into_iter().find(|kind| kind.head[0] == id);
    found.expect("a kind of the table")
}

/// The names of the kinds of which this holds.
pub fn names(of: impl Fn(&Kind) -> bool) -> Vec<&'static str> {
    let kinds = KINDS.into_iter().filter(|kind| of(kind));
    kinds.map(|kind| kind.name).collect()
}

/// The kinds that have a field of this name, and the field.
pub fn with_field(
    name: &'static str,
) -> impl Iterator<Item = (&'static Kind, &'static Field<Message>)> {
    let kinds = KINDS.into_iter();
    kinds.filter_map(move |kind| Some((kind, named(kind.fields, name)?)))
}

/// The same message in our types.
pub fn ours(message: &Message) -> ours::Message<'_> {
    let found = KINDS.into_iter().find_map(|kind| (kind.ours)(message));
    found.expect("a kind of the table")
}

/// The same message in the second program's types.
pub fn theirs(message: &ours::Message<'_>) -> Message {
    let found = KINDS.into_iter().find_map(|kind| (kind.theirs)(message));
    found.expect("a kind of the table")
}

/// A message as the explainer shows it.
pub fn shown(message: &Message) -> String {
    let found = KINDS.into_iter().find_map(|kind| (kind.shown)(message));
    found.expect("a kind of the table")
}

impl Kind {
    /// Whether its messages are a payload.
    pub fn is_uplink(&self) -> bool {
        self.head == UPLINK.head
    }

    /// A body of this length with the kind's head, as far as it goes, and
    /// random octets behind it.
    pub fn random_body(&self, length: usize, generator: &mut Generator) -> Vec<u8> {
        let mut body = generator.octets(length);
        let head = self.head;
        let fits = head.len().min(length);
        body[..fits].copy_from_slice(&head[..fits]);
        body
    }

    /// The body of a message whose fields are all in range.
    pub fn right_body(&self, generator: &mut Generator) -> Vec<u8> {
        body_of(&self.message(generator))
    }

    /// A message whose fields are all in range.
    pub fn message(&self, generator: &mut Generator) -> Message {
        let mut message = (self.blank)();
        put_within(&mut message, self.fields, generator);
        if let Some(text) = self.text {
            (text.put)(&mut message, text.characters.within(generator));
        }
        if let Message::Uplink(uplink) = &mut message {
            generator.fill(&mut uplink.octets);
        }
        message
    }

    /// A message in which something may be out of range: one field, the text
    /// or the payload's length.
    pub fn wild_message(&self, generator: &mut Generator) -> Message {
        let mut message = self.message(generator);
        put_one_wild(&mut message, self.fields, generator);
        if let (Some(text), 0) = (self.text, generator.below(4)) {
            (text.put)(&mut message, text.characters.wild(generator));
        }
        if let Message::Uplink(uplink) = &mut message {
            uplink.octets.resize(any_payload(generator), 0x7D);
        }
        message
    }

    /// A message that is right but perhaps for this number in a field, and its
    /// body.
    pub fn with(
        &self,
        field: &Field<Message>,
        number: i64,
        generator: &mut Generator,
    ) -> (Message, Vec<u8>) {
        let mut message = self.message(generator);
        let mut body = body_of(&message);
        field.put_both(&mut message, &mut body, number);
        (message, body)
    }
}

/// The body of a message whose fields are all in range.
pub fn body_of(message: &Message) -> Vec<u8> {
    let mut body = vec![0; 436];
    let length = second::messages::write(message, &mut body).expect("a message in range");
    body.truncate(length);
    body
}

/// About as long as a payload, in most cases exactly.
fn any_payload(generator: &mut Generator) -> usize {
    generator.pick(&[0, 1, 434, 435, 435, 435, 435, 436, 437, 438])
}

const OCTET: Edges = Edges::unsigned(8, 8);
const HALF: Edges = Edges::unsigned(4, 8);

/// A field by its place in the message of some kinds, and its edges.
macro_rules! field {
    ($($kind:ident)|+, $field:ident, $edges:expr) => {
        Field {
            name: stringify!($field),
            edges: $edges,
            place: None,
            put: |message, number| match message {
                $(Message::$kind(of))|+ => of.$field = number as _,
                _ => unreachable!("another kind"),
            },
        }
    };
}
use field;

/// A text by its place in the body and in the message of some kinds.
macro_rules! text {
    ($($kind:ident)|+, $field:ident, $place:literal, $characters:expr) => {
        TextField {
            characters: $characters,
            place: $place,
            put: |message, text| match message {
                $(Message::$kind(of))|+ => of.$field = text,
                _ => unreachable!("another kind"),
            },
        }
    };
}
use text;
