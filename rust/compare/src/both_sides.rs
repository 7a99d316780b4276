//! The same message of the UCP line on both sides.

use ostrogosz::messages as ours;
use second::messages::Message;

use crate::comparison::lending;
use crate::messages;

/// What the proved reader makes of a body, in the second program's types.
pub fn read(body: &[u8]) -> Result<Message, u8> {
    lending(body, |body| {
        let message = ours::read_message(body).map_err(|refusal| refusal.number())?;
        Ok(messages::theirs(&message))
    })
}

/// What the proved writer makes of a message.
pub fn write(message: &Message, output: &mut [u8]) -> Result<usize, u8> {
    lending(message, |message| {
        ours::write_message(&messages::ours(message), output).map_err(|refusal| refusal.number())
    })
}

/// What the proved sender makes of a message, in a buffer of 878 octets.
pub fn send(message: &Message, buffer: &mut [u8]) -> Result<usize, u8> {
    let buffer = buffer.try_into().expect("878 octets");
    lending(message, |message| {
        ours::send_message(&messages::ours(message), buffer).map_err(|refusal| refusal.number())
    })
}
