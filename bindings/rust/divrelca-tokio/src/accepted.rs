//! The socket of a connection that a listener accepted.

use std::io;
use std::pin::Pin;
use std::task::{Context, Poll};
use tokio::io::{AsyncRead, AsyncWrite, ReadBuf};
use tokio::net::TcpStream;

// A login takes fewer.
const QUICK_READS: u32 = 16;

/// A socket that acknowledges at once what its first reads take.
///
/// Twice in a login a client sends two short packets of which only the second one is answered: its KEXINIT and its public point, and its
/// NEWKEYS and the request for the service. Its system keeps the second one back until the first one is acknowledged (RFC 896). This
/// system would wait some 40 ms for an answer to send that along (RFC 1122 section 4.2.3.2).
pub(crate) struct Accepted {
    socket: TcpStream,
    quick_reads: u32,
}

impl Accepted {
    pub fn new(socket: TcpStream) -> Self {
        let _ = socket.set_nodelay(true);
        Accepted { socket, quick_reads: QUICK_READS }
    }
}

impl AsyncRead for Accepted {
    fn poll_read(mut self: Pin<&mut Self>, cx: &mut Context<'_>, into: &mut ReadBuf<'_>) -> Poll<io::Result<()>> {
        let polled = Pin::new(&mut self.socket).poll_read(cx, into);
        if self.quick_reads > 0 && polled.is_ready() {
            self.quick_reads -= 1;
            #[cfg(target_os = "linux")]
            let _ = socket2::SockRef::from(&self.socket).set_quickack(true);
        }
        polled
    }
}

impl AsyncWrite for Accepted {
    fn poll_write(mut self: Pin<&mut Self>, cx: &mut Context<'_>, body: &[u8]) -> Poll<io::Result<usize>> {
        Pin::new(&mut self.socket).poll_write(cx, body)
    }

    fn poll_flush(mut self: Pin<&mut Self>, cx: &mut Context<'_>) -> Poll<io::Result<()>> {
        Pin::new(&mut self.socket).poll_flush(cx)
    }

    fn poll_shutdown(mut self: Pin<&mut Self>, cx: &mut Context<'_>) -> Poll<io::Result<()>> {
        Pin::new(&mut self.socket).poll_shutdown(cx)
    }
}

#[cfg(all(test, target_os = "linux"))]
mod tests {
    use super::*;
    use std::time::{Duration, Instant};
    use tokio::io::{AsyncReadExt, AsyncWriteExt};
    use tokio::net::TcpListener;

    // How long the second of two short packets is on its way, behind a first one that is not answered.
    async fn second_of_two() -> io::Result<Duration> {
        let listener = TcpListener::bind("127.0.0.1:0").await?;
        let (client, accepted) = tokio::join!(TcpStream::connect(listener.local_addr()?), listener.accept());
        let (mut client, mut server) = (client?, Accepted::new(accepted?.0));
        client.write_all(b"a").await?;
        server.read_u8().await?;
        server.write_all(b"b").await?;
        client.read_u8().await?;
        let begun = Instant::now();
        client.write_all(b"c").await?;
        client.write_all(b"d").await?;
        server.read_u8().await?;
        server.read_u8().await?;
        Ok(begun.elapsed())
    }

    #[tokio::test]
    async fn short_packets_wait_for_no_answer() -> io::Result<()> {
        let mut fastest = Duration::MAX;
        for _ in 0..10 {
            fastest = fastest.min(second_of_two().await?);
        }
        assert!(fastest < Duration::from_millis(20), "{fastest:?}");
        Ok(())
    }
}
