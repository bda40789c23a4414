//! Lists the descriptors that the crate makes of a FileDescriptorSet, read from standard input:
//! the messages and enums of its last file and of what that imports, a line for each message,
//! field, enum and value.
//!
//! The set is one of protoc's, with imports before the files that import them, and with
//! source_code_info.

use std::collections::HashMap;
use std::io::{self, Read, Write};
use std::process::ExitCode;

use protobuf::descriptor::FileDescriptorSet;
use protobuf::reflect::{
    EnumDescriptor, FieldDescriptor, FileDescriptor, MessageDescriptor, RuntimeFieldType,
    RuntimeType,
};
use protobuf::Message;

// Field numbers in descriptor.proto: the paths of source_code_info are made of them.
const FILE_MESSAGES: i32 = 4;
const FILE_ENUMS: i32 = 5;
const MESSAGE_NESTED: i32 = 3;
const MESSAGE_ENUMS: i32 = 4;

/// Line and column, from 0.
type Place = (i32, i32);

#[derive(Default)]
struct Types {
    messages: Vec<MessageDescriptor>,
    enums: Vec<EnumDescriptor>,
}

/// One file's types, with what is needed to tell where its enums begin.
struct Gathering {
    places: HashMap<Vec<i32>, Place>,
    messages: Vec<MessageDescriptor>,
    enums: Vec<(Place, EnumDescriptor)>,
}

impl Gathering {
    fn of(file: &FileDescriptor) -> Gathering {
        let mut places = HashMap::new();
        for location in &file.proto().source_code_info.location {
            if let [line, column, ..] = location.span[..] {
                places.entry(location.path.clone()).or_insert((line, column));
            }
        }
        let mut all = Gathering { places, messages: Vec::new(), enums: Vec::new() };
        for (at, own) in (0..).zip(file.enums()) {
            all.add_enum(own, &[FILE_ENUMS, at]);
        }
        for (at, message) in (0..).zip(file.messages()) {
            all.add_message(message, &[FILE_MESSAGES, at]);
        }
        // The crate keeps the enums of a file apart from its messages; where each begins is left.
        all.enums.sort_by_key(|(place, _)| *place);
        all
    }

    fn add_enum(&mut self, own: EnumDescriptor, path: &[i32]) {
        let place = self.places.get(path).copied().unwrap_or_default();
        self.enums.push((place, own));
    }

    /// A message, then what is nested in it. The entry of a map is no message of its own.
    fn add_message(&mut self, message: MessageDescriptor, path: &[i32]) {
        if message.is_map_entry() {
            return;
        }
        self.messages.push(message.clone());
        for (at, own) in (0..).zip(message.nested_enums()) {
            self.add_enum(own, &[path, &[MESSAGE_ENUMS, at]].concat());
        }
        for (at, nested) in (0..).zip(message.nested_messages()) {
            self.add_message(nested, &[path, &[MESSAGE_NESTED, at]].concat());
        }
    }
}

/// A file's types, then those of the files that it imports, in the order of its import lines.
fn add_file(file: &FileDescriptor, seen: &mut Vec<String>, types: &mut Types) {
    if seen.iter().any(|name| name == file.name()) {
        return;
    }
    seen.push(file.name().to_owned());
    let own = Gathering::of(file);
    types.messages.extend(own.messages);
    types.enums.extend(own.enums.into_iter().map(|(_, own)| own));
    for imported in file.deps() {
        add_file(imported, seen, types);
    }
}

/// A type, and what it refers to or `-`.
fn type_words(kind: &RuntimeType) -> String {
    match kind {
        RuntimeType::I32 => "int32 -".to_owned(),
        RuntimeType::I64 => "int64 -".to_owned(),
        RuntimeType::U32 => "uint32 -".to_owned(),
        RuntimeType::U64 => "uint64 -".to_owned(),
        RuntimeType::F32 => "float -".to_owned(),
        RuntimeType::F64 => "double -".to_owned(),
        RuntimeType::Bool => "bool -".to_owned(),
        RuntimeType::String => "string -".to_owned(),
        RuntimeType::VecU8 => "bytes -".to_owned(),
        RuntimeType::Enum(own) => format!("enum {}", own.name_to_package()),
        RuntimeType::Message(message) => format!("message {}", message.name_to_package()),
    }
}

fn field_line(field: &FieldDescriptor) -> String {
    let words = match field.runtime_field_type() {
        RuntimeFieldType::Singular(kind) if field.is_required() => {
            format!("required - {}", type_words(&kind))
        }
        RuntimeFieldType::Singular(kind) => format!("optional - {}", type_words(&kind)),
        RuntimeFieldType::Repeated(kind) => format!("repeated - {}", type_words(&kind)),
        RuntimeFieldType::Map(key, value) => {
            let key_words = type_words(&key);
            format!("map {} {}", key_words.trim_end_matches(" -"), type_words(&value))
        }
    };
    format!("field {} {} {words}", field.name(), field.number())
}

fn write_types(types: &Types, out: &mut impl Write) -> io::Result<()> {
    for message in &types.messages {
        writeln!(out, "message {}", message.name_to_package())?;
        for field in message.fields() {
            writeln!(out, "{}", field_line(&field))?;
        }
    }
    for own in &types.enums {
        writeln!(out, "enum {}", own.name_to_package())?;
        for value in own.values() {
            writeln!(out, "value {} {}", value.name(), value.value())?;
        }
    }
    Ok(())
}

fn types_of_set(bytes: &[u8]) -> protobuf::Result<Types> {
    let set = FileDescriptorSet::parse_from_bytes(bytes)?;
    let files = FileDescriptor::new_dynamic_fds(set.file, &[])?;
    let mut types = Types::default();
    if let Some(last) = files.last() {
        add_file(last, &mut Vec::new(), &mut types);
    }
    Ok(types)
}

fn main() -> io::Result<ExitCode> {
    let mut bytes = Vec::new();
    io::stdin().read_to_end(&mut bytes)?;
    match types_of_set(&bytes) {
        Ok(types) => {
            write_types(&types, &mut io::stdout().lock())?;
            Ok(ExitCode::SUCCESS)
        }
        Err(error) => {
            eprintln!("no set of file descriptors: {error}");
            Ok(ExitCode::FAILURE)
        }
    }
}
