//! Times the proved library, through its C boundary, beside the same work in
//! Rust: `cargo run --release -p bench`. Prints one table; a ratio says how many
//! times as fast ours is, by the best of many turns on the same input.

#![deny(unsafe_code)]

mod best;
mod best_rows;
mod check;
mod emitter;
mod lister;
mod lister_rows;
mod mavlink;
mod mavlink_rows;
mod messages;
mod messages_rows;
mod receiver;
mod receiver_rows;
mod squawk;
mod table;
mod timing;
mod writer;
mod writer_rows;
mod x25;

fn main() -> std::io::Result<()> {
    // So started it is one of the listers that the rows time.
    if std::env::args().nth(1).as_deref() == Some(lister_rows::LISTER) {
        return lister::run();
    }
    table::print_head();
    writer_rows::print();
    receiver_rows::print();
    messages_rows::print();
    mavlink_rows::print();
    lister_rows::print()?;
    best_rows::print();
    Ok(())
}
