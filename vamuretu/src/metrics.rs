//! The metrics as a text of Prometheus, over HTTP on a local address.

use std::io::ErrorKind;
use std::time::Duration;

use prometheus::{IntCounter, Registry, TextEncoder};
use tokio::io::{AsyncRead, AsyncReadExt, AsyncWrite, AsyncWriteExt};
use tokio::net::TcpListener;

use crate::doors::Places;

/// The most bytes of a request, and how long it may take.
const MOST_REQUEST: usize = 8192;
const MOST_TIME: Duration = Duration::from_secs(5);
/// How many requests there may be at a time: for one more the oldest is closed.
const MOST_REQUESTS: usize = 8;
/// The descriptors of this door.
pub const DESCRIPTORS: usize = MOST_REQUESTS + 1;

/// Answers each request with the metrics of a registry, for ever.
pub async fn serve(listener: TcpListener, registry: Registry) {
    let places = Places::new(MOST_REQUESTS, MOST_REQUESTS);
    let help = "Requests for metrics that were closed for newer ones.";
    let closed = IntCounter::new("vamuretu_metrics_refused_total", help).expect("a name and a text that are right");
    registry.register(Box::new(closed.clone())).expect("a name that is new");
    loop {
        match listener.accept().await {
            Ok((stream, _)) => {
                let (place, registry, closed) = (places.take(()), registry.clone(), closed.clone());
                tokio::spawn(async move {
                    let answering = place.hold(answer(stream, &registry));
                    if let Ok(Err(told)) = tokio::time::timeout(MOST_TIME, answering).await {
                        closed.inc_by((told.kind() == ErrorKind::ConnectionAborted).into());
                    }
                });
            }
            Err(told) => {
                tracing::warn!(%told, "metrics: no connection was taken");
                tokio::time::sleep(Duration::from_millis(100)).await;
            }
        }
    }
}

/// Reads a request up to its empty line.
async fn read_request<S: AsyncRead + Unpin>(stream: &mut S) -> std::io::Result<Vec<u8>> {
    let mut request = Vec::new();
    let mut room = [0; 1024];
    while request.len() < MOST_REQUEST && !request.windows(4).any(|it| it == b"\r\n\r\n") {
        match stream.read(&mut room).await? {
            0 => break,
            count => request.extend_from_slice(&room[..count]),
        }
    }
    Ok(request)
}

/// Answers one request.
pub async fn answer<S: AsyncRead + AsyncWrite + Unpin>(mut stream: S, registry: &Registry) -> std::io::Result<()> {
    let request = read_request(&mut stream).await?;
    let (status, text) = if request.starts_with(b"GET /metrics ") || request.starts_with(b"GET / ") {
        ("200 OK", TextEncoder::new().encode_to_string(&registry.gather()).unwrap_or_default())
    } else {
        ("404 Not Found", String::new())
    };
    let length = text.len();
    let head = format!("HTTP/1.1 {status}\r\nContent-Type: text/plain; version=0.0.4\r\nContent-Length: {length}\r\n");
    stream.write_all(format!("{head}Connection: close\r\n\r\n{text}").as_bytes()).await?;
    stream.shutdown().await
}

#[cfg(test)]
pub mod tests {
    use std::collections::BTreeSet;

    use prometheus::proto::MetricFamily;
    use tokio::net::TcpStream;

    use super::*;

    /// The metrics of nodes and watchers, which the page has in the list of a node alone.
    const SHARED: [&str; 2] = ["vamuretu_lines_dropped_total", "vamuretu_metrics_refused_total"];

    /// Compares what a registry tells with the list of docs/REFERENCE.md behind a heading: the name and the label of each
    /// metric, but for those of nodes and watchers. tools/tables.py makes the list.
    pub fn on_the_page(heading: &str, registry: &Registry) {
        let page = include_str!("../../docs/REFERENCE.md").split_once(heading).expect("a heading").1;
        let page = page.split("\n#").next().expect("a section");
        let is_own = |name: &String| !SHARED.contains(&name.as_str());
        let told: BTreeSet<String> = registry.gather().iter().map(name_of).filter(is_own).collect();
        let items = page.lines().filter(|line| line.starts_with("- `vamuretu_"));
        let names = items.flat_map(|line| line.split('`')).filter(|it| it.starts_with("vamuretu_"));
        assert_eq!(told, names.map(str::to_owned).filter(is_own).collect());
    }

    /// The name of a metric, with its label.
    fn name_of(family: &MetricFamily) -> String {
        let label = family.get_metric()[0].get_label().first().map(|it| format!("{{{}}}", it.get_name()));
        format!("{}{}", family.get_name(), label.unwrap_or_default())
    }

    #[test]
    fn who_is_silent_keeps_nobody_from_an_answer() {
        let runtime = tokio::runtime::Builder::new_current_thread().enable_all().build().expect("a runtime");
        runtime.block_on(async {
            let listener = TcpListener::bind("127.0.0.1:0").await.expect("an address");
            let address = listener.local_addr().expect("an address");
            tokio::spawn(serve(listener, Registry::new()));
            let mut silent = vec![];
            for _ in 0..MOST_REQUESTS * 3 {
                silent.push(TcpStream::connect(address).await.expect("connected"));
            }
            let mut stream = TcpStream::connect(address).await.expect("connected");
            stream.write_all(b"GET /metrics HTTP/1.0\r\n\r\n").await.expect("written");
            let mut told = String::new();
            stream.read_to_string(&mut told).await.expect("read");
            let closed = MOST_REQUESTS * 2 + 1;
            assert!(told.ends_with(&format!("vamuretu_metrics_refused_total {closed}\n")), "{told}");
        });
    }
}
