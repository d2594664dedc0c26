//! An independent reading of documents 01 and 02, written from the documents: plain, slow, and without a look at the proved source.
//!
//! Every `Err` is a refusal's number ('Turned down'). Each call makes its whole result first, and only then writes to the lent buffers.

mod cell;
mod draws;
mod files;
mod filled;
mod forks;
mod listing;
mod named;
mod orders;
mod paths;
mod places;
mod plans;
mod records;
mod refusals;
mod screen;
mod stops;
mod tours;
mod tree;
mod weighings;

pub use cell::{cell_check, cell_plan, cell_rewrite};
pub use draws::draw_number;
pub use files::{read_order_file, write_order_file};
pub use filled::{list_by_enumeration, list_by_groups, plan_filled};
pub use forks::{fork_cost, fork_cost_by_enumeration, fork_cost_by_whole_tables, ForkCost};
pub use listing::all_orders;
pub use named::{clear, come_back, keep};
pub use orders::{exchange, fork_bits, order_of_bits, order_total};
pub use paths::{read_path, table_from, write_path};
pub use places::{placed_cost, placed_total, plan_places};
pub use plans::{plan, plan_path};
pub use refusals::*;
pub use screen::{exchange_fork, group_sums};
pub use stops::{make_table, travel_time, Stop};
pub use tours::{closed_total, tour, tour_by_last_stops};
pub use tree::{allowed, by_enumeration, by_whole_tables, every_set, fork_above, may_follow, move_cost, order_of, preferred, refusal, total};
pub use weighings::{foretell, of_pass, plan_weighings};
