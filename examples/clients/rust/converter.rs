//! Sends the requests of the Rust client schema_registry_converter, byte by byte, and compares each response. The methods,
//! paths, fields and bodies come from the client's documentation and source; the client itself isn't run.
//!
//!     rustc -o converter examples/clients/rust/converter.rs && ./converter HOST:PORT [PREFIX]

use std::io::{Read, Write};
use std::net::TcpStream;

const ORDER: &str = r#"[{\"name\":\"id\",\"type\":\"long\"}]"#;
const COMPATIBLE: &str = r#"[{\"name\":\"id\",\"type\":\"long\"},{\"name\":\"note\",\"type\":\"string\",\"default\":\"\"}]"#;
const INCOMPATIBLE: &str = r#"[{\"name\":\"id\",\"type\":\"long\"},{\"name\":\"total\",\"type\":\"double\"}]"#;

/// One keep-alive connection, as `reqwest` uses it.
struct Client {
    stream: TcpStream,
    host: String,
}

impl Client {
    /// Sends a request with the client's header fields. Returns the status and the body.
    fn call(&mut self, method: &str, path: &str, body: Option<&str>) -> (u16, String) {
        let fields = "content-type: application/vnd.schemaregistry.v1+json\r\naccept: application/vnd.schemaregistry.v1+json\r\n";
        let length = body.map_or(String::new(), |text| format!("content-length: {}\r\n", text.len()));
        let request = format!("{method} {path} HTTP/1.1\r\n{fields}host: {}\r\n{length}\r\n{}", self.host, body.unwrap_or(""));
        self.stream.write_all(request.as_bytes()).expect("the request is sent");
        let mut head = Vec::new();
        let mut byte = [0];
        while !head.ends_with(b"\r\n\r\n") {
            self.stream.read_exact(&mut byte).expect("the server sends a head");
            head.push(byte[0]);
        }
        let head = String::from_utf8(head).expect("the head is UTF-8");
        let status = head[9..12].parse().expect("a status");
        let length = head.lines().find_map(|line| line.strip_prefix("Content-Length: ")).expect("a length");
        let mut body = vec![0; length.parse().expect("a number")];
        self.stream.read_exact(&mut body).expect("the server sends the body");
        (status, String::from_utf8(body).expect("the body is UTF-8"))
    }
}

fn body(prefix: &str, fields: &str) -> String {
    format!(r#"{{"schema":"{{\"type\":\"record\",\"name\":\"{prefix}Order\",\"fields\":{fields}}}","schemaType":"AVRO","references":[]}}"#)
}

/// The value of a member of a JSON object, if the value is a number.
fn number(text: &str, member: &str) -> u64 {
    let rest = text.split(&format!("\"{member}\":")).nth(1).unwrap_or_else(|| panic!("no {member} in {text}"));
    rest.chars().take_while(char::is_ascii_digit).collect::<String>().parse().expect("a number")
}

fn main() {
    let arguments: Vec<String> = std::env::args().collect();
    let prefix = arguments.get(2).map_or("", String::as_str);
    let stream = TcpStream::connect(&arguments[1]).expect("the server accepts the connection");
    let mut client = Client { stream, host: arguments[1].clone() };
    let subject = format!("/subjects/{prefix}orders-value");

    // `get_schema_by_subject` with the latest version, before there is one
    let (status, text) = client.call("GET", &format!("{subject}/versions/latest"), None);
    assert_eq!((status, number(&text, "error_code")), (404, 40401), "{text}");

    // `post_schema`
    let (status, text) = client.call("POST", &format!("{subject}/versions"), Some(&body(prefix, ORDER)));
    assert_eq!(status, 200, "{text}");
    let first = number(&text, "id");
    assert_eq!(client.call("POST", &format!("{subject}/versions"), Some(&body(prefix, ORDER))), (200, format!("{{\"id\":{first}}}")));
    let (status, text) = client.call("POST", &format!("{subject}/versions"), Some(&body(prefix, INCOMPATIBLE)));
    assert_eq!((status, number(&text, "error_code")), (409, 409), "{text}");
    let (_, text) = client.call("POST", &format!("{subject}/versions"), Some(&body(prefix, COMPATIBLE)));
    let second = number(&text, "id");

    // the requests of encoders and decoders: the latest version, version 1, a schema by its id, and a lookup
    let (_, text) = client.call("GET", &format!("{subject}/versions/latest"), None);
    assert_eq!((number(&text, "id"), number(&text, "version")), (second, 2));
    let (_, text) = client.call("GET", &format!("{subject}/versions/1"), None);
    assert_eq!((number(&text, "id"), number(&text, "version")), (first, 1));
    let (status, text) = client.call("GET", &format!("/schemas/ids/{first}?deleted=true"), None);
    assert_eq!(status, 200, "{text}");
    assert!(text.contains(&format!(r#"\"name\":\"{prefix}Order\""#)), "{text}");
    let (status, text) = client.call("GET", "/schemas/ids/2147483647?deleted=true", None);
    assert_eq!((status, number(&text, "error_code")), (404, 40403), "{text}");
    let (status, text) = client.call("POST", &format!("{subject}?deleted=false"), Some(&body(prefix, COMPATIBLE)));
    assert_eq!((status, number(&text, "version")), (200, 2), "{text}");
    let (status, text) = client.call("POST", &format!("{subject}?deleted=false"), Some(&body(prefix, INCOMPATIBLE)));
    assert_eq!((status, number(&text, "error_code")), (404, 40403), "{text}");
    println!("schema_registry_converter, replayed: each response is right");
}
