//! Numbers as people read them.

/// Digits between two commas.
const GROUP: usize = 3;

/// 4294967296 as `4,294,967,296`.
///
/// ```
/// assert_eq!(mft::figures::grouped(4_294_967_296), "4,294,967,296");
/// assert_eq!(mft::figures::grouped(512), "512");
/// ```
pub fn grouped(number: u64) -> String {
    let digits = number.to_string();
    let mut text = String::new();
    for (place, digit) in digits.chars().enumerate() {
        if place > 0 && (digits.len() - place).is_multiple_of(GROUP) {
            text.push(',');
        }
        text.push(digit);
    }
    text
}

/// `1 route`, `116 routes`.
///
/// ```
/// assert_eq!(mft::figures::counted(1, "route", "routes"), "1 route");
/// assert_eq!(mft::figures::counted(4096, "route", "routes"), "4,096 routes");
/// ```
pub fn counted(number: u64, one: &str, many: &str) -> String {
    format!("{} {}", grouped(number), if number == 1 { one } else { many })
}

/// `1 route`, or as many as there are.
pub fn routes(number: usize) -> String {
    counted(number as u64, "route", "routes")
}

/// `1 byte`, or as many as there are.
pub fn bytes(number: usize) -> String {
    counted(number as u64, "byte", "bytes")
}

/// `1 address`, or as many as there are.
pub fn addresses(number: u64) -> String {
    counted(number, "address", "addresses")
}

/// `port 7`, or `no route`.
pub fn port(port: Option<u16>) -> String {
    port.map_or("no route".into(), |port| format!("port {port}"))
}
