/// A chart for a failure's message: its size, and its bytes as digits for `xxd -r -p`.
pub fn shown(chart: &[u8]) -> String {
    let digits: String = chart.iter().map(|byte| format!("{byte:02x}")).collect();
    format!("the chart of {} bytes, {digits}", chart.len())
}
