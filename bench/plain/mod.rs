// The desk in straightforward Rust: the whole run as the texts describe it, one step after the other, and every line of text looked
// at on its own. Nothing is prepared beyond the views of each table. Only the search for maps of lines goes by words of pairs.

mod deciding;
mod granting;
mod labelling;
mod loading;
mod numerals;
mod reading;
mod reducing;
mod running;
mod values;

pub use deciding::{decide, Reply};
pub use granting::smallest_grant;
pub use labelling::{label_query, table_views};
pub use loading::load;
pub use reading::read_query;
pub use running::run;
