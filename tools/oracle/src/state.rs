//! The state that requests build up, and the answer to each.

use protobuf::text_format::{merge_from_str, print_to_string, print_to_string_pretty};
use protobuf::MessageDyn;

use crate::descriptors::Descriptors;
use crate::hex::{from_hex, to_hex, words_from_hex};
use crate::image::schema_of_image;
use crate::reading::refusal;
use crate::table::Table;

#[derive(Default)]
pub struct State {
    descriptors: Option<Descriptors>,
    root: usize,
    words: Vec<u32>,
    pool: Vec<u8>,
    /// The message that was read, or made of the node table; `None` until it is asked for.
    message: Option<Box<dyn MessageDyn>>,
}

impl State {
    /// The answer to one line, `None` for a request that has no answer.
    pub fn request(&mut self, line: &str) -> Option<String> {
        let words: Vec<&str> = line.split(' ').collect();
        match words.as_slice() {
            ["S", image] => self.set_schema(image),
            ["R", root] => self.set_root(root),
            ["N", table] => self.set_table(table),
            ["P", pool] => self.set_pool(pool),
            ["T", _, _, text] => return Some(self.read(text)),
            ["C", _] => return Some(self.print("C", print_to_string)),
            ["Y", _] => return Some(self.print("Y", print_to_string_pretty)),
            ["Q"] => return Some(self.check()),
            _ => return Some("? bad request".to_owned()),
        }
        None
    }

    fn set_schema(&mut self, image: &str) {
        self.descriptors =
            from_hex(image).and_then(|i| schema_of_image(&i)).and_then(Descriptors::new);
        self.message = None;
    }

    fn set_root(&mut self, root: &str) {
        self.root = root.parse().unwrap_or(usize::MAX);
        self.message = None;
    }

    fn set_table(&mut self, table: &str) {
        self.words = words_from_hex(table).unwrap_or_default();
        self.message = None;
    }

    fn set_pool(&mut self, pool: &str) {
        self.pool = from_hex(pool).unwrap_or_default();
        self.message = None;
    }

    fn read(&mut self, text: &str) -> String {
        let Some(descriptors) = &self.descriptors else {
            return "T no schema".to_owned();
        };
        let Some(root) = descriptors.message(self.root) else {
            return "T no root".to_owned();
        };
        let Some(text) = from_hex(text).and_then(|t| String::from_utf8(t).ok()) else {
            return "T no utf8".to_owned();
        };
        let mut message = root.new_instance();
        if let Err(error) = merge_from_str(&mut *message, &text) {
            return format!("T no {}", refusal(&error));
        }
        let compact = to_hex(print_to_string(&*message).as_bytes());
        let pretty = to_hex(print_to_string_pretty(&*message).as_bytes());
        self.message = Some(message);
        format!("T ok {compact} {pretty}")
    }

    /// The message of the state, made of the node table unless there is one.
    fn current(&mut self) -> Option<&dyn MessageDyn> {
        if self.message.is_none() {
            let descriptors = self.descriptors.as_ref()?;
            let table = Table { descriptors, words: &self.words, pool: &self.pool };
            self.message = table.message(self.root);
        }
        self.message.as_deref()
    }

    fn print(&mut self, request: &str, print: fn(&dyn MessageDyn) -> String) -> String {
        match self.current() {
            Some(message) => format!("{request} ok {}", to_hex(print(message).as_bytes())),
            None => format!("{request} no table"),
        }
    }

    fn check(&mut self) -> String {
        match self.current() {
            Some(message) if message.is_initialized_dyn() => "Q ok".to_owned(),
            Some(_) => "Q no".to_owned(),
            None => "Q no table".to_owned(),
        }
    }
}
