//! Files to judge: written by hand, drawn by chance, damaged, as large as the limits allow, and hostile.

mod aimed;
mod chance;
mod damage;
mod draft;
mod drawn;
mod hostile;
mod list;
mod looped;
mod rich;
mod squaring;

pub use aimed::{aimed, targets};
pub use chance::Chance;
pub use damage::{damaged, damaged_blocks};
pub use draft::{Draft, Drawing};
pub use drawn::{drawn, shaped, Shape};
pub use hostile::{deep, doubling, empty_levels, hidden, longest, many_rows, many_units, scattered, unused_instances};
pub use list::{constant, output_of, own, seal, List};
pub use looped::looped;
pub use rich::rich;
pub use squaring::{squaring, variants};
