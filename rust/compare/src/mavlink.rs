//! MAVLink frames to read, and messages to write.

use second::mavlink::{x25, Dynamic, Message, RequestDataStream, Static, Status, Traffic};

use crate::edges::{beside, named, put_one_wild, put_within, Edges, Field};
use crate::generator::Generator;
use crate::texts::{Characters, TextField};

/// Octets of the longest frame.
pub const LONGEST_FRAME: usize = 50;

/// Octets before the payload.
pub const HEAD: usize = 6;

/// Octets of the check.
pub const CHECK: usize = 2;

/// Sequence, system and component.
pub type Header = [u8; 3];

/// A kind of message.
#[derive(Clone, Copy, Debug, PartialEq, Eq)]
pub enum Kind {
    /// ID 66.
    DataStream,
    /// ID 201.
    Static,
    /// ID 202.
    Dynamic,
    /// ID 203.
    Status,
    /// ID 246.
    Traffic,
}

impl Kind {
    /// Every kind.
    pub const ALL: [Self; 5] = [
        Self::DataStream,
        Self::Static,
        Self::Dynamic,
        Self::Status,
        Self::Traffic,
    ];

    /// What the counts call it.
    pub const fn name(self) -> &'static str {
        match self {
            Self::DataStream => "66, Data stream",
            Self::Static => "201, Static",
            Self::Dynamic => "202, Dynamic",
            Self::Status => "203, Status",
            Self::Traffic => "246, Traffic",
        }
    }

    /// The names of all kinds.
    pub fn names() -> [&'static str; 5] {
        Self::ALL.map(Self::name)
    }

    /// The kinds that have a field of this name, and the field.
    pub fn with_field(name: &'static str) -> impl Iterator<Item = (Self, &'static Field<Message>)> {
        let kinds = Self::ALL.into_iter();
        kinds.filter_map(move |kind| Some((kind, named(kind.fields(), name)?)))
    }

    /// The kind of an ID.
    pub fn of_id(id: u8) -> Option<Self> {
        Self::ALL.into_iter().find(|kind| kind.id() == id)
    }

    /// Its ID.
    pub const fn id(self) -> u8 {
        match self {
            Self::DataStream => 66,
            Self::Static => 201,
            Self::Dynamic => 202,
            Self::Status => 203,
            Self::Traffic => 246,
        }
    }

    /// Octets of its payload.
    pub const fn payload(self) -> u8 {
        match self {
            Self::DataStream => 6,
            Self::Static => 19,
            Self::Dynamic => 42,
            Self::Status => 1,
            Self::Traffic => 38,
        }
    }

    /// The octet that its check takes in last.
    pub const fn extra(self) -> u8 {
        match self {
            Self::DataStream => 148,
            Self::Static => 126,
            Self::Dynamic => 7,
            Self::Status => 85,
            Self::Traffic => 184,
        }
    }

    /// Octets of its frame.
    pub const fn octets(self) -> usize {
        HEAD + self.payload() as usize + CHECK
    }

    /// A frame with a payload at random and a right check.
    pub fn random_frame(self, generator: &mut Generator) -> Vec<u8> {
        let mut frame = generator.octets(self.octets());
        frame[..2].copy_from_slice(&[0xFE, self.payload()]);
        frame[5] = self.id();
        self.seal(&mut frame);
        frame
    }

    /// The frame of a message whose fields are all in range.
    pub fn right_frame(self, generator: &mut Generator) -> Vec<u8> {
        let header = any_header(generator);
        frame_of(header, &self.message(generator))
    }

    /// Puts the check that is right for this kind at the end of the frame.
    pub fn seal(self, frame: &mut [u8]) {
        seal(frame, self.extra());
    }

    /// A message whose fields are all in range.
    pub fn message(self, generator: &mut Generator) -> Message {
        let mut message = self.blank();
        put_within(&mut message, self.fields(), generator);
        if let Some(text) = self.text() {
            (text.put)(&mut message, text.characters.within(generator));
        }
        if let (Message::Traffic(traffic), 0) = (&mut message, generator.below(4)) {
            traffic.squawk = u16::MAX;
        }
        message
    }

    /// A message in which one field or the text may be out of range.
    pub fn wild_message(self, generator: &mut Generator) -> Message {
        let mut message = self.message(generator);
        put_one_wild(&mut message, self.fields(), generator);
        if let (Some(text), 0) = (self.text(), generator.below(4)) {
            (text.put)(&mut message, text.characters.wild(generator));
        }
        message
    }

    /// A message that is right but perhaps for this number in a field, and its
    /// frame with a right check.
    pub fn with(
        self,
        field: &Field<Message>,
        number: i64,
        header: Header,
        generator: &mut Generator,
    ) -> (Message, Vec<u8>) {
        let mut message = self.message(generator);
        let mut frame = frame_of(header, &message);
        field.put_both(&mut message, &mut frame, number);
        self.seal(&mut frame);
        (message, frame)
    }

    /// The same with each other field out of range in turn, behind a right
    /// check.
    pub fn beside(
        self,
        field: &Field<Message>,
        of: &(Message, Vec<u8>),
    ) -> Vec<(Message, Vec<u8>)> {
        let mut wrong = beside(self.fields(), field, of);
        for (_, frame) in &mut wrong {
            self.seal(frame);
        }
        wrong
    }

    /// The text of the kind, if it has one.
    pub const fn text(self) -> Option<&'static TextField<Message>> {
        match self {
            Self::Static => Some(&STATIC_CALLSIGN),
            Self::Traffic => Some(&TRAFFIC_CALLSIGN),
            _ => None,
        }
    }

    /// Every field of the kind that is a number.
    pub const fn fields(self) -> &'static [Field<Message>] {
        match self {
            Self::DataStream => &DATA_STREAM,
            Self::Static => &STATIC,
            Self::Dynamic => &DYNAMIC,
            Self::Status => &STATUS,
            Self::Traffic => &TRAFFIC,
        }
    }

    /// A message of zeros.
    const fn blank(self) -> Message {
        match self {
            Self::DataStream => Message::RequestDataStream(BLANK_DATA_STREAM),
            Self::Static => Message::Static(BLANK_STATIC),
            Self::Dynamic => Message::Dynamic(BLANK_DYNAMIC),
            Self::Status => Message::Status(Status { status: 0 }),
            Self::Traffic => Message::Traffic(BLANK_TRAFFIC),
        }
    }
}

/// A header at random.
pub fn any_header(generator: &mut Generator) -> Header {
    let [sequence, system, component, ..] = generator.number().to_be_bytes();
    [sequence, system, component]
}

/// The frame of a message whose fields are all in range.
pub fn frame_of([sequence, system, component]: Header, message: &Message) -> Vec<u8> {
    let mut frame = vec![0; LONGEST_FRAME];
    let length = second::mavlink::write(sequence, system, component, message, &mut frame)
        .expect("a message in range");
    frame.truncate(length);
    frame
}

/// Puts the check over all octets but the first and this extra one at the end
/// of the frame, whatever its octets say of it.
pub fn seal(frame: &mut [u8], extra: u8) {
    let end = frame.len() - CHECK;
    let checked = [&frame[1..end], &[extra]].concat();
    frame[end..].copy_from_slice(&x25(&checked).to_le_bytes());
}

const BLANK_DATA_STREAM: RequestDataStream = RequestDataStream {
    rate: 0,
    target_system: 0,
    target_component: 0,
    stream: 0,
    start_stop: 0,
};

const BLANK_STATIC: Static = Static {
    address: 0,
    integrity: 0,
    stall_speed: 0,
    callsign: [b' '; 8],
    capability: 0,
    emitter: 0,
    size: 0,
    lateral: 0,
    longitudinal: 0,
};

const BLANK_DYNAMIC: Dynamic = Dynamic {
    utc_time: 0,
    latitude: 0,
    longitude: 0,
    pressure_altitude: 0,
    gnss_altitude: 0,
    horizontal_accuracy: 0,
    vertical_accuracy: 0,
    velocity_accuracy: 0,
    vertical_velocity: 0,
    north_velocity: 0,
    east_velocity: 0,
    state: 0,
    squawk: 0,
    fix: 0,
    satellites: 0,
    emergency: 0,
    control: 0,
};

const BLANK_TRAFFIC: Traffic = Traffic {
    address: 0,
    latitude: 0,
    longitude: 0,
    altitude: 0,
    heading: 0,
    horizontal_velocity: 0,
    vertical_velocity: 0,
    valid: 0,
    squawk: 0,
    altitude_type: 0,
    callsign: [0; 9],
    emitter: 0,
    since_last: 0,
};

/// A field by its kind and its place in the message, and its edges.
macro_rules! field {
    ($kind:ident, $field:ident $([$place:literal])?, $edges:expr) => {
        Field {
            name: stringify!($field),
            edges: $edges,
            place: None,
            put: |message, number| match message {
                Message::$kind(of) => of.$field $([$place])? = number as _,
                _ => unreachable!("another kind"),
            },
        }
    };
}

const U8: Edges = Edges::unsigned(8, 8);
const U16: Edges = Edges::unsigned(16, 16);
const U32: Edges = Edges::unsigned(32, 32);
const I16: Edges = Edges::signed(16, 16);
const I32: Edges = Edges::signed(32, 32);

static DATA_STREAM: [Field<Message>; 5] = [
    field!(RequestDataStream, rate, U16),
    field!(RequestDataStream, target_system, U8),
    field!(RequestDataStream, target_component, U8),
    field!(RequestDataStream, stream, U8),
    field!(RequestDataStream, start_stop, U8),
];

static STATIC: [Field<Message>; 8] = [
    field!(Static, address, Edges::unsigned(24, 32)),
    field!(Static, integrity, U8),
    field!(Static, stall_speed, U16),
    field!(Static, capability, Edges::up_to(0, 8)).at(HEAD + 14),
    field!(Static, emitter, Edges::EMITTER).at(HEAD + 15),
    field!(Static, size, Edges::up_to(15, 8)).at(HEAD + 16),
    field!(Static, lateral, Edges::up_to(7, 8)).at(HEAD + 17),
    field!(Static, longitudinal, Edges::up_to(31, 8)).at(HEAD + 18),
];

static DYNAMIC: [Field<Message>; 17] = [
    field!(Dynamic, utc_time, U32),
    field!(Dynamic, latitude, I32),
    field!(Dynamic, longitude, I32),
    field!(Dynamic, pressure_altitude, I32),
    field!(Dynamic, gnss_altitude, I32),
    field!(Dynamic, horizontal_accuracy, U32),
    field!(Dynamic, vertical_accuracy, U16),
    field!(Dynamic, velocity_accuracy, U16),
    field!(Dynamic, vertical_velocity, I16),
    field!(Dynamic, north_velocity, I16),
    field!(Dynamic, east_velocity, I16),
    field!(Dynamic, state, U16),
    field!(Dynamic, squawk, Edges::SQUAWK).at(HEAD + 36),
    field!(Dynamic, fix, Edges::up_to(5, 8)).at(HEAD + 38),
    field!(Dynamic, satellites, U8),
    field!(Dynamic, emergency, U8),
    field!(Dynamic, control, U8),
];

static STATUS: [Field<Message>; 1] = [field!(Status, status, U8)];

/// The squawk that stands for none lies past these edges, and is tried as the
/// most that its type holds.
static TRAFFIC: [Field<Message>; 13] = [
    field!(Traffic, address, U32),
    field!(Traffic, latitude, I32),
    field!(Traffic, longitude, I32),
    field!(Traffic, altitude, I32),
    field!(Traffic, heading, U16),
    field!(Traffic, horizontal_velocity, U16),
    field!(Traffic, vertical_velocity, I16),
    field!(Traffic, valid, U16),
    field!(Traffic, squawk, Edges::SQUAWK).at(HEAD + 24),
    field!(Traffic, altitude_type, U8),
    field!(Traffic, callsign[8], U8),
    field!(Traffic, emitter, U8).at(HEAD + 36),
    field!(Traffic, since_last, U8),
];

static STATIC_CALLSIGN: TextField<Message> = TextField {
    characters: Characters::Spaced,
    place: HEAD + 6,
    put: |message, text| match message {
        Message::Static(of) => of.callsign = text,
        _ => unreachable!("another kind"),
    },
};

/// Its first eight octets.
static TRAFFIC_CALLSIGN: TextField<Message> = TextField {
    characters: Characters::Any,
    place: HEAD + 27,
    put: |message, text| match message {
        Message::Traffic(of) => of.callsign[..8].copy_from_slice(&text),
        _ => unreachable!("another kind"),
    },
};
