//! A plain model of the admission checker.
//!
//! It is written straight from the subject, with wide numbers and growing lists, and shares nothing with the checker
//! itself. Its only use is to give answers that the checker's answers can be compared with.
//!
//! ```
//! use model::{check_text, generate, read_tables, rehearse, rehearse_text, Change, Pile, Plan};
//!
//! // one core, one partition "A" with a period of 1 ms and no tasks
//! let tab = [0x21, 0, 0, 0, 0x03, 0xB9, 0xAC, 0xA0, 0x01, 0x41];
//! let tables = read_tables(&tab).unwrap();
//! assert_eq!(tables.partitions[0].name, b"A");
//!
//! // whole programs
//! assert_eq!(check_text(&tab, &[1]), b"refused 10 at 0\n");
//! assert_eq!(rehearse_text(&tab, b"place 0 0\n"), b"1 accepted\nplayed 1, accepted 1, refused 0\n");
//!
//! // single calls, under any pile
//! for pile in Pile::kinds() {
//!     let arbiter = pile.arbiter(tables.cores).unwrap();
//!     let mut plan = Plan::birth(&tab).unwrap();
//!     assert_eq!(plan.trial_times(&*arbiter, 0, 0), Ok(vec![]));
//!     assert!(plan.change(&*arbiter, &Change::Place { partition: 0, core: 0 }).is_ok());
//!     assert_eq!(plan.all_windows(&*arbiter), [0]);
//!     assert!(rehearse(&tab, &*arbiter, &[Change::Withdraw { partition: 0 }]).unwrap().1[0].verdict.is_err());
//! }
//!
//! // inputs by their number, the same in every run
//! let input = generate::input(7);
//! assert_eq!(input, generate::input(7));
//! ```

pub mod arbiter;
pub mod changes;
pub mod description;
pub mod faults;
pub mod file;
pub mod generate;
pub mod input;
pub mod plan;
pub mod refusal;
pub mod rehearsal;
pub mod shipped;
pub mod tables;
pub mod text;

pub use arbiter::{Bottom, Pile};
pub use changes::Change;
pub use file::read as read_tables;
pub use plan::Plan;
pub use refusal::Refusal;
pub use rehearsal::{rehearse, rehearse_text, Outcome};
pub use tables::Tables;
pub use text::{check_text, summary_text};
