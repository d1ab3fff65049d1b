//! A server in memory, to test a client with: [`Table`] for a client of your own, byte by byte; [`World`] and
//! [`replay`] for histories of the proved client, the wires and the server, with cut and lost connections.

pub use crate::fibs_model::{
    Broken, Carrier, Entry, Event, InMemory, RunEnd, Served, Server, Stop, Way, World, WorldRefusal,
};
pub use crate::fibs_replay::{replay, replay_over};

use crate::{Board, Lines, Plain, PositionFault, read_plain};

impl std::error::Error for WorldRefusal {}

/// A debug print that shows no field.
macro_rules! opaque {
    ($($name:ident),*) => {
        $(impl std::fmt::Debug for $name {
            fn fmt(&self, f: &mut std::fmt::Formatter<'_>) -> std::fmt::Result {
                f.debug_struct(stringify!($name)).finish_non_exhaustive()
            }
        })*
    };
}

opaque!(Server, Table, World);

/// A server with one table, at which a client plays. It is the model of a server that is proved, with a wire: bytes of
/// the client go in, bytes for the client come out.
///
/// The first line of a connection logs in, and is answered by messages 1 and 2; each later one is obeyed if it is a
/// decision that is allowed, and is answered by the board.
///
/// ```
/// use fibs::{Client, Decision, Login, model::Table};
///
/// let line = "board:You:bob:1:0:0:0:-2:0:0:0:0:5:0:3:0:0:0:-5:5:0:0:0:-3:0:-5:0:0:0:0:2:0:1:\
///     0:0:0:0:1:1:1:0:1:-1:0:25:0:0:0:0:0:0:0:0";
/// let mut table = Table::new(line.parse()?)?;
/// let mut client = Client::new(Login::new(b"ann", b"secret")?);
/// client.open()?;
/// let mut decided = false;
/// while !client.outgoing().is_empty() {
///     let answer = table.hear(client.outgoing(), [6, 2]);
///     client.sent(client.outgoing().len());
///     client.hear_all(&answer, |_| ());
///     if !decided && client.shown().is_some() {
///         client.decide(&Decision::Roll)?;
///         decided = true;
///     }
/// }
/// assert_eq!(table.board().get(fibs::field::FIRST_DIE), Some(6));
/// # Ok::<(), Box<dyn std::error::Error>>(())
/// ```
pub struct Table {
    server: Server,
    /// The number of the connection, and whether it has logged in.
    conn: usize,
    is_in: bool,
    lines: Lines,
}

impl Table {
    /// A table that shows this board.
    ///
    /// # Errors
    /// What is wrong with the board.
    pub fn new(board: Board) -> Result<Table, PositionFault> {
        Ok(Table { server: Server::new(board)?, conn: 1, is_in: false, lines: Lines::new() })
    }

    /// The board as the server has it.
    pub fn board(&self) -> &Board {
        self.server.board()
    }

    /// Bytes of the client, and what the server says to them. The dice are those of each roll that they ask for.
    pub fn hear(&mut self, bytes: &[u8], dice: [u8; 2]) -> Vec<u8> {
        let mut said = Vec::new();
        let (server, conn, is_in) = (&mut self.server, self.conn, &mut self.is_in);
        self.lines.each(bytes, |line| {
            let served = server.serve(conn, !*is_in, line.bytes, dice);
            if !*is_in {
                said.extend_from_slice(GREETING);
            } else if served.is_answered() && read_plain(line.bytes).is_none_or(|plain| plain == Plain::Board) {
                said.extend_from_slice(&server.board().print());
                said.extend_from_slice(b"\r\n");
            }
            *is_in = true;
        });
        said
    }

    /// The opponent has acted: the server shows this board, which it also says to the client.
    ///
    /// # Errors
    /// [`WorldRefusal::UserDecides`], [`WorldRefusal::BadBoard`].
    pub fn own(&mut self, board: &Board) -> Result<Vec<u8>, WorldRefusal> {
        self.server.own(board)?;
        Ok([&board.print()[..], b"\r\n"].concat())
    }

    /// The connection is lost: what comes next is of a new one.
    pub fn lose(&mut self) {
        self.conn += 1;
        self.is_in = false;
        self.lines.reset();
    }
}

/// What the server says at a login.
const GREETING: &[u8] = b"1 ann 1041253132 localhost\r\n2 ann 1 1 0 0 0 0 1 1 10 0 1 0 1 1500.00 0 0 0 0 0 UTC\r\n";
