
pub use driver::answer_text;
